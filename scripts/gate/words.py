#!/usr/bin/env python3
"""Fails if a page, a comment or the name of a mutant has a word that is given up, and says what stands in its place: the tables below.

    python3 scripts/gate/words.py

The lines of a paragraph or of a comment are read as one text, so that a phrase over two of them is found; the first is named.
Names of code, in backticks, in blocks or as the target of a link, are not words.
The words of a reader's own field stand in for those of OWN on each page but CHANGELOG, in names of mutants, in headers, in the
first lines of scripts, and in the comments of crates, except OLD_CRATES. STYLE, for examples and exceptions, holds there too, except
in `specs` and `proofs`.

Names of code and of files have the words of pages for test vectors and mutants, too (NAMED). Only `line_reading` has a `row`: the line
that a mark counts, where a line is one of tokens.

It fails too if README, or all pages together, have more words than MOST says.

Run by check.sh.
"""
import re
import sys
from itertools import groupby
from pathlib import Path

sys.path.insert(0, str(Path(__file__).resolve().parents[1] / "parts"))
from usage import no_words  # noqa: E402

TOP = Path(__file__).resolve().parents[2]
INSTEAD = {
    r"want of memory": "out of memory",
    r"refused growth|growths? (?:is|was|are|were|that is) refused|growth refused": "an allocation fails, a failed allocation",
    r"\banswer(?:s|ed|ing)?\b": "returns, result",
    r"\bbehind\b": "follows, after",
    r"\bfronts? of (?:an?|the|its|these|this|each)\b": "prefix",
    r"composer(?:'s)? faults?\b|faults? of the composer": "composer error",
    r"\bamid\b": "within, in the middle of",
}
OWN = {
    r"cut trees?": "partial tree",
    r"front trees?": "prefix tree",
    r"\bfault(?:s|ed)?\b": "error",
    r"\bsentences?\b": "valid list",
    r"\bbeginnings?\b": "viable prefix, start",
    r"\bsettle[sd]?\b": "determines",
    r"\bbreak(?:s|ing)? off\b|\bbroken? off\b": "fails early",
    r"\brows?\b": "test vector",
    r"\bedits?\b": "mutant",
    r"\bcarriers?\b": "anchored node",
    r"\blent\b": "in `proofs/exported`",
    r"\brefusals?\b": "error",
}
STYLE = {
    r", as (?:an?|the|by|that|in)\b": "such as, like, for example",
    r"\bbut for\b": "except",
}
NAMED = re.compile(r"\w*(?:(?<![A-Za-z])(?:row|edit)s?(?![a-z])|(?:Row|Edit)s?(?![a-z]))\w*")
OLD_PAGES = {"CHANGELOG.md"}
CALL = re.compile(r"\b\w+\([^()]*\);")
OLD_CRATES = ("vectors_", "bench_")


def lines_of_page(text):
    """The lines of a page, each without blocks of code and without what makes it a quote or a comment of C."""
    text = re.sub(r"^```.*?^```", lambda block: "\n" * block.group().count("\n"), text, flags=re.M | re.S)
    for line in text.split("\n"):
        yield re.sub(r"^\s*(?:/?\*+/?|//+|>)\s", "", line)


def comments_of(path):
    """The lines of a file of code or definitions, each with its comment alone."""
    mark = "//" if path.suffix == ".rt" else "--"
    for line in path.read_text().split("\n"):
        code, _, comment = line.partition(mark)
        yield "" if code.strip() else comment.lstrip("/!-")


def first_lines(path):
    """The comment that a script begins with, line by line, without commands and names of files."""
    text = path.read_text()
    found = re.match(r'(?:#![^\n]*\n)?(?:"""(.*?)"""|/\*(.*?)\*/|((?:#[^\n]*\n)*))', text, flags=re.S)
    lines = [re.sub(r"^(?: ?\*|#) ?", "", line) for line in next((part for part in found.groups() if part), "").split("\n")]
    return ["" if line.startswith("    ") else re.sub(r"\b[\w/]+\.(sh|py|c|edit)\b", "`", line) for line in lines]


def comments_of_c(path):
    """The lines of a file of C, each with its comment alone; a call in it is no word."""
    text = re.sub(r"(?s)/\*.*?\*/|[^\n]", lambda found: found[0] if found[0].startswith("/*") else "", path.read_text())
    for line in text.split("\n"):
        yield CALL.sub("`", re.sub(r"^\s*/?\*+/?", "", line))


def given_up(lines, words):
    """The number of the line where each word begins that is given up, and the word with what stands in its place."""
    pattern = re.compile("|".join(f"({word})" for word in words), re.IGNORECASE)
    for is_text, block in groupby(enumerate(lines, 1), lambda line: bool(line[1].strip())):
        if not is_text:
            continue
        text, begins = "", []
        for number, line in block:
            begins.append((len(text), number))
            text += line.strip() + " "
        text = re.sub(r"`[^`]*`|\]\([^)\s]*\)", lambda code: "`" * len(code.group()), text)
        for match in pattern.finditer(text):
            instead = list(words.values())[match.lastindex - 1]
            yield max(number for begin, number in begins if begin <= match.start()), f"{match.group()} (now: {instead})"


def pages():
    for pattern in ("*.md", "docs/*.md", "crates/*/README.md", "bindings/*/README.md", "scripts/**/README.md"):
        yield from TOP.glob(pattern)


def headers():
    found = [*TOP.glob("examples/*.[hc]"), *TOP.glob("bindings/c/**/*.[hc]")]
    return [path for path in found if "build" not in path.relative_to(TOP).parts]


def scripts():
    return [path for path in TOP.glob("scripts/**/*") if path.suffix in (".sh", ".py", ".c", ".h") and path.name != "words.py"]


def files(crates):
    """Each text, line by line, with the words that it may not have."""
    both = INSTEAD | OWN | STYLE
    for page in pages():
        yield page, lines_of_page(page.read_text()), INSTEAD if page.name in OLD_PAGES else both
    for path in headers():
        yield path, comments_of_c(path), both
    for path in scripts():
        yield path, first_lines(path), both
    for crate in crates:
        for room in ("src", "specs", "proofs"):
            for path in sorted((TOP / "crates" / crate / room).rglob("*")):
                if path.suffix in (".rt", ".antt"):
                    own = both if room == "src" else INSTEAD | OWN
                    yield path, comments_of(path), INSTEAD if crate.startswith(OLD_CRATES) else own


def mutants():
    """The words given up that the name of a mutant has after its function's."""
    words = INSTEAD | OWN
    pattern = re.compile("|".join(f"({word})" for word in words), re.IGNORECASE)
    for path in sorted(TOP.glob("crates/*/must-fail/*.edit")):
        for match in pattern.finditer(path.stem.partition("-")[2].replace("_", " ")):
            yield path, list(words.values())[match.lastindex - 1]


def names():
    """Each name in code and of a file that has a word given up, with its file."""
    for path in sorted(path for path in TOP.glob("crates/*/*/**/*") if path.is_file()):
        crate, room = path.relative_to(TOP).parts[1:3]
        if crate != "line_reading" and room != "out":
            text = path.read_text() if path.suffix in (".rt", ".antt") else ""
            yield from ((path, name) for name in sorted(set(NAMED.findall(path.stem.partition("-")[0]) + NAMED.findall(text))))


MOST = [
    ("README.md has", ["README.md"], 800),
    ("all pages together have", ["README.md", "CONTRIBUTING.md", "SECURITY.md", "docs/*.md", "bindings/**/README.md", "crates/*/README.md"], 25_000),
]


def too_many():
    for names, patterns, most in MOST:
        found = {page for pattern in patterns for page in TOP.glob(pattern) if not {"out", "build", "target"} & set(page.relative_to(TOP).parts)}
        if (words := sum(len(page.read_text().split()) for page in found)) > most:
            yield f"{names} {words} words, of {most}"


def main():
    found = [
        f"{path.relative_to(TOP)}:{number}: {word}"
        for path, lines, words in files(sorted(crate.name for crate in TOP.glob("crates/*")))
        for number, word in given_up(lines, words)
    ]
    found += too_many()
    found += [f"{path.relative_to(TOP)}: its name (now: {instead})" for path, instead in mutants()]
    found += [f"{path.relative_to(TOP)}: {name} (now: test vector, mutant)" for path, name in names()]
    if found:
        sys.exit("\n".join(found))


if __name__ == "__main__":
    no_words(__file__)
    main()
