#!/usr/bin/env python3
"""Fails if a name that users write doesn't stand where names.txt says: in that crate or module, with those
fields, calls and variants.

    python3 scripts/gate/names.py          names what is missing
    python3 scripts/gate/names.py where    says first where each name stands, and in which file it is declared

What a root or a module re-exports stands there, too.

Run by check.sh.
"""
import re
import sys
from pathlib import Path

TOP = Path(__file__).resolve().parents[2]
CRATES = TOP / "crates"
USE = re.compile(r"^pub use ([\w:]+?)(?:::\{([^}]*)\})?;", re.M)
ITEM = r"(?:^#\[.*\n)*^pub (?:const )?(?:struct|enum|trait|fn|const|type) {}\b(?:.*;$|(?s:.*?)^\{{?\}})"
CALLS = r"^((?:impl|pub trait)\b[^{{;]*\b{}\b[^{{;]*)\{{$((?s:.*?))^\}}"
WITH_PARTS = ("struct", "enum", "const", "has")


def file_of(crate, modules):
    """The file of a crate's root, or of a module, or None."""
    source = CRATES / crate / "src"
    inner = source.joinpath(*modules)
    paths = [inner.with_suffix(".rt")] if modules else [source / "lib.rt", source / "main.rt"]
    return next((path for path in paths if path.exists()), None)


def text_of(crate, modules):
    path = file_of(crate, modules)
    return path.read_text() if path else ""


def item(crate, modules, name):
    """The file and text of the item that this path names, or of the enum whose variant it names, or None."""
    text = text_of(crate, modules)
    if found := re.search(ITEM.format(name), text, re.M):
        return file_of(crate, modules), found[0]
    for where, group in USE.findall(text):
        steps = where.split("::")
        names = re.findall(r"\w+", group) if group else [steps.pop()]
        if name in names:
            is_crate = (CRATES / steps[0]).is_dir()
            return item(*((steps[0], steps[1:]) if is_crate else (crate, modules + steps)), name)
    enum = item(crate, modules[:-1], modules[-1]) if modules and not text else None
    return enum if enum and name in re.findall(r"^    (\w+)", enum[1], re.M) else None


def named(crate, modules, name):
    """The item that a user names by this path, or None."""
    above = (text_of(crate, modules[:depth]) for depth in range(len(modules)))
    is_open = all(f"\npub mod {module};" in text for module, text in zip(modules, above))
    return item(crate, modules, name) if is_open else None


def members(text):
    """A type's public fields with their types, or its variants."""
    return ", ".join(re.findall(r"^    (?:pub )?((?<=pub )\w+: .*|[A-Z]\w*(?:\(.*\))?),$", text, re.M))


def calls(path, name):
    """A type's public calls and those of its traits, or what a trait asks for, in the crate of this file."""
    source = CRATES / path.relative_to(CRATES).parts[0] / "src"
    for text in (path.read_text() for path in source.rglob("*.rt")):
        for head, body in re.findall(CALLS.format(name), text, re.M):
            own = "" if "trait" in head or " for " in head else "pub "
            yield from re.findall(rf"^    {own}(?:const )?fn (\w+)", body, re.M)


def lacks(kind, name, parts, path, text):
    """What an item lacks, in words, or nothing."""
    is_item = kind not in ("has", "derives", "variant")
    if is_item and not re.search(rf"^pub (?:const )?{kind} {name}\b", text, re.M):
        return f"is no {kind}"
    if kind in ("struct", "enum") and members(text) != parts:
        return f"has {members(text) or 'no public field'} in place of {parts or 'private fields alone'}"
    if kind == "const" and f"{name}: {parts};" not in text:
        return f"isn't {parts}"
    derived = re.findall(r"\w+", "".join(re.findall(r"derive(\(.*\))", text)))
    given = calls(path, name) if kind == "has" else derived
    missing = set(parts.split()) - set(given) if kind in ("has", "derives") else ()
    return f"lacks {' '.join(sorted(missing))}" if missing else ""


def rows_of(kind, rest, listed):
    """The names of a line of names.txt: kind, name, and what it has to have."""
    first, _, after = rest.partition(" " if kind in ("struct", "enum") else ":")
    if kind == "all":
        return [row for place in rest.split() for row in listed[place] if row[0] != "told"]
    if kind == "variants":
        enums = {name: parts for rows in listed.values() for row, name, parts in rows if row == "enum"}
        return [("variant", name, "") for enum in rest.split() for name in enums[enum].split(", ")]
    if kind == "derives":
        return [(kind, name, first) for name in after.split()]
    return [(kind, name, after.strip(" {}")) for name in ([first] if kind in WITH_PARTS else first.split())]


def names():
    """Each name of names.txt, with where it has to stand."""
    text = re.sub(r"^#.*\n", "", Path(__file__).with_suffix(".txt").read_text(), flags=re.M)
    place, listed = "", {"": []}
    for line in re.sub(r"\n +", " ", text).split("\n"):
        kind, _, rest = line.partition(" ")
        if kind == "crate":
            place = rest
            listed[place] = []
        elif kind:
            listed[place] += rows_of(kind, rest, listed)
    for place, rows in listed.items():
        told = {name for kind, name, _ in rows if kind == "told"}
        yield from ((place, *row) for row in rows if row[0] == "told" or row[1] not in told)


def look(place, kind, name, parts):
    """What is wrong with a name, in words or nothing, and where it stands."""
    crate, *modules = place.split("::")
    found = named(crate, modules, name) if place else (CRATES / name).is_dir()
    if kind == "told":
        is_told = parts in (TOP / "docs" / "DECISIONS.md").read_text()
        wrong = "is there" if found else "" if is_told else f'isn\'t told: docs/DECISIONS.md lacks "{parts}"'
        return wrong, "docs/DECISIONS.md"
    if not found:
        return "isn't there", ""
    return lacks(kind, name, parts, *found), found[0].relative_to(TOP)


def main():
    if sys.argv[1:] not in ([], ["where"]):
        print("usage: python3 scripts/gate/names.py [where]", file=sys.stderr)
        return 2
    failed = False
    for place, kind, name, parts in names():
        wrong, where = look(place, kind, name, parts)
        failed = failed or bool(wrong)
        if wrong or sys.argv[1:]:
            print(f"{place}{'::' if place else ''}{name} {wrong or f'({kind}): {where}'}")
    return 1 if failed else 0


if __name__ == "__main__":
    sys.exit(main())
