"""docs/HEADLINE.md's table: how many lines the definitions have that the headline and the clauses of the two whole runs
cite, directly or through one another. A definition is what stands in a file of `specs/` from one name at the left edge to
the next, with the comment above it."""
import re

from sources import TOP, closure, imports, read_specs, words_of

SHOWN = ["of_tree", "of_partial_tree"]
LAW = "libyaml_grammar/src/laws.rt", "headline", None  # all its clauses
PARSES = "unsafe_libyaml/src/parse_all.rt", "yaml_parser_parse_all"
LOADS = "unsafe_libyaml/src/load_all.rt", "yaml_parser_load_all"
ROWS = [
    ("`laws::headline`", [LAW]),
    ("`yaml_parser_parse_all`: two clauses", [(*PARSES, SHOWN)]),
    ("`yaml_parser_load_all`: two clauses", [(*LOADS, SHOWN)]),
    ("these and `gathers`, of both; both headlines", [
        LAW, ("libyaml_graphs/src/laws.rt", "headline", None), *((*one, [*SHOWN, "gathers"]) for one in (PARSES, LOADS))]),
]


def seeds_of(path, function, names):
    """The names that these clauses of a function cite, or all its clauses."""
    text = (TOP / "crates" / path).read_text()
    start = text.index("pub fn " + function)
    clauses = re.split(r"(?=    ensures )", re.sub(r"//.*", "", text[start : text.index("\n{", start)]))
    named = {clause.split()[1]: clause for clause in clauses if clause.startswith("    ensures ")}
    known = imports(text)
    words = words_of("".join(named[clause] for clause in names or named))
    return [known[word] for word in words if word in known]


def make(pages):
    files, page = read_specs(), TOP / "docs/HEADLINE.md"
    rows = ["| contract | lines | definitions | files |", "|---|---|---|---|"]
    for name, contracts in ROWS:
        seen = closure(files, [seed for contract in contracts for seed in seeds_of(*contract)])
        lines = sum(len(files[module].blocks[block]) for module, block in seen)
        rows.append(f"| {name} | {lines} | {len(seen)} | {len({module for module, _ in seen})} |")
    pages[page], count = re.subn(r"(?s)\| contract \| lines.*?\n\n", "\n".join(rows) + "\n\n", pages[page])
    return [] if count == 1 else ["docs/HEADLINE.md has no table of definitions"]
