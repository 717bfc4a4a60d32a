#!/usr/bin/env python3
"""Names what a reader of specs and proofs meets twice or in vain, and fails if there is something:

- a name of specs/ that stands for more than one definition, except those of KNOWN;
- a definition of specs/ and proofs/ that no code, contract or proof reaches, by the names that are mentioned;
- lemmas whose statements are equal except for the names of their variables;
- a public function or type of the libraries that docs/surface.txt doesn't have and no other crate names.

    python3 scripts/gate/dead_and_duplicate.py

Run by check.sh.
"""
import re
import sys
from collections import defaultdict
from pathlib import Path

TOP = Path(__file__).resolve().parents[2]
sys.path[:0] = [str(TOP / "scripts/parts"), str(TOP / "scripts/parts/pages")]

import surface  # noqa: E402
from sources import CRATES  # noqa: E402
from usage import no_words  # noqa: E402

KNOWN = {"step"}  # of the automaton, and of the machine over it
NAME = r"[^\s(){}.,;:=→λ]+"
HEAD = re.compile(rf"^(?:abbrev )?(?:pub )?(?:(record|data) ({NAME})(?: |$)|({NAME}|\S*◌\S*) :(?: |$))")
WORD = re.compile(rf"{NAME}(?:\.{NAME})*")
SKIPPED = ("use ", "pub use ", "pub mod ", "mod ", "--")
BLOCK = re.compile(r"^(?:abbrev )?(?:pub )?(?:mutual|module)\b")


class Definition:
    """A definition at the left margin of a file or of a block: its statement, and what its text mentions."""

    def __init__(self, path, name, kind):
        self.path, self.name, self.kind, self.lines = path, name, kind, []

    def statement(self):
        """The text from the first colon up to the equations, on one line."""
        text = []
        for line in self.lines:
            if text and re.match(rf"\s*{re.escape(self.name)}(?: |$)", line) and not HEAD.match(line.strip()):
                break
            text.append(line.strip())
        return " ".join(text).partition(" : ")[2]

    def mentions(self):
        return set(part for word in WORD.findall("\n".join(self.lines)) for part in word.split("."))


def definitions(path):
    """The definitions of a file, at its left margin or that of a block. What stands before the first of a block is left out."""
    found, current, margins = [], None, [0]
    for line in path.read_text().splitlines():
        bare = line.lstrip()
        margin = len(line) - len(bare)
        if not bare or bare.startswith("--") or line.startswith(SKIPPED):
            continue
        if margin in margins and BLOCK.match(bare):
            margins = [m for m in margins if m <= margin] + [margin + 2]
            current = None
            continue
        if bare == "where" and current is None:
            margins[-1] = margin + 2
            continue
        head = HEAD.match(bare) if margin in margins else None
        if head:
            margins = [m for m in margins if m <= margin]
            current = Definition(path, head[2] or head[3], head[1] or "term")
            found.append(current)
        if current is not None:
            current.lines.append(line)
    return found


def files(part):
    return sorted(path for path in TOP.glob(f"crates/*/{part}/**/*.antt") if path.name != "Lib.antt")


def is_goal(path):
    """Whether a file answers the goals of a function, which the check asks for by their names."""
    return path.name in ("Answers.antt", "Invariants.antt", "Proof.antt")


def dead(every):
    """What neither code nor a goal, an operator or a set of rules reaches. A mention of a name reaches each definition of that name."""
    by_name = defaultdict(list)
    for one in every:
        by_name[one.name].append(one)
    todo = set()
    for path in TOP.glob("crates/*/src/**/*.rt"):
        todo.update(part for word in WORD.findall(path.read_text()) for part in word.split("."))
    for one in every:
        if is_goal(one.path) or "◌" in one.name:
            todo |= one.mentions()
    for path in [*files("specs"), *files("proofs")]:
        for line in re.findall(r"^(?:pub )?ruleset .*(?:\n .*)*", path.read_text(), flags=re.M):
            todo.update(WORD.findall(line))
    seen = set()
    while todo:
        name = todo.pop()
        if name in seen:
            continue
        seen.add(name)
        for one in by_name.get(name, ()):
            todo |= one.mentions() - seen
    return [one for one in every if one.name not in seen and not is_goal(one.path) and "◌" not in one.name]


def normal(statement):
    """A statement with its variables numbered in their order."""
    names = {}
    bound = re.compile(rf"[({{]([^(){{}}:]*) : ")
    for group in bound.findall(statement):
        for name in group.split():
            names.setdefault(name, f"#{len(names)}")
    return WORD.sub(lambda word: names.get(word[0], word[0]) if "." not in word[0] else
                    ".".join([names.get(word[0].split(".")[0], word[0].split(".")[0])] + word[0].split(".")[1:]), statement)


def twice(proofs):
    """Groups of lemmas with one statement; a statement of a few signs says nothing of the kind."""
    groups = defaultdict(list)
    for one in proofs:
        text = one.statement()
        if not is_goal(one.path) and "→" in text and "≡" in text:
            groups[normal(text)].append(one)
    return [group for group in groups.values() if len(group) > 1]


def unnamed():
    """Public functions and types of the libraries whose name stands neither in docs/surface.txt nor in another crate."""
    named = set(re.findall(r"\w+", surface.PAGE.read_text()))
    of_crate = {}
    for crate in CRATES:
        texts = (path.read_text() for path in (TOP / "crates" / crate).glob("[ps]*/**/*") if path.suffix in (".rt", ".antt"))
        of_crate[crate] = {word for text in texts for word in re.findall(r"\w+", text)}
    for crate in filter(surface.is_library, CRATES):
        above = named.union(*(words for other, words in of_crate.items() if other != crate))
        for name, item in surface.public_of(crate).items():
            if item is not None and item.kind not in ("impl", "const") and not surface.LAWS.match(name) and name.split("::")[-1] not in above:
                yield f"{crate}: {name}"


def place(one):
    return f"{one.path.relative_to(TOP / 'crates')}: {one.name}"


def main():
    specs = [one for path in files("specs") for one in definitions(path)]
    proofs = [one for path in files("proofs") for one in definitions(path)]
    places = defaultdict(dict)
    for one in specs:
        places[one.name][one.path] = place(one)
    doubled = {name for name, some in places.items() if len(some) > 1}
    wrong = [f"not as KNOWN says, one name or several: {', '.join(places[name].values())}" for name in sorted(doubled ^ KNOWN)]
    wrong += sorted(f"nothing reaches {place(one)}" for one in dead(specs + proofs))
    wrong += [f"one statement: {', '.join(map(place, group))}" for group in twice(proofs)]
    wrong += [f"no page and no other crate names {name}" for name in unnamed()]
    sys.exit("\n".join(wrong) or 0)


if __name__ == "__main__":
    no_words(__file__)
    main()
