#!/usr/bin/env python3
"""Imports of .antt files: one line a module, which goes on in a further line if it is wider than 300, and none without a name.

    python3 scripts/gate/imports.py            writes them so; a module stays where its first line was
    python3 scripts/gate/imports.py --check    names the files if that isn't so, and fails if there is one

A module that is imported by an alias has one alias everywhere, and an alias stands for one module. Left out are `goal` and `given`, which
are each function's own, and a type's equality (`specs.contracts`).

Run by check.sh.
"""
import re
import sys
from pathlib import Path

TOP = Path(__file__).resolve().parents[2]
sys.path.insert(0, str(TOP / "scripts/parts"))
from usage import wrong_words  # noqa: E402

WIDTH = 300
ALIAS = re.compile(r"^\s*(?:ghost )?use Rattle\.([\w.]+) as (\w+);?$", re.M)
OWN = {"goal", "given"}
USE = re.compile(r"((?:pub )?use [\w.]+)\.\{(.*)\}$")


def packed(head, names):
    """The lines that import these names."""
    lines = []
    for name in names:
        if lines and len(f"{head}.{{{lines[-1]}, {name}}}") <= WIDTH:
            lines[-1] += f", {name}"
        else:
            lines.append(name)
    return [f"{head}.{{{line}}}" for line in lines]


def rewritten(text):
    lines = text.splitlines()
    names = {}
    for found in filter(None, map(USE.match, lines)):
        listed = (name.strip() for name in found[2].split(","))
        names.setdefault(found[1], {}).update((name, None) for name in listed if name)
    out = []
    for line in lines:
        if found := USE.match(line):
            out += packed(found[1], names.pop(found[1], ()))
        else:
            out.append(line)
    return "".join(line + "\n" for line in out)


def aliases():
    """The aliases of modules: in each file, which module has which."""
    for path in [*files(), *sorted(TOP.glob("crates/*/src/**/*.rt"))]:
        for module, alias in ALIAS.findall(path.read_text()):
            if alias not in OWN and ".contracts." not in module:
                yield path, module, alias


def two_meanings():
    """Where a module has a second alias, or an alias a second module."""
    modules, named = {}, {}
    for path, module, alias in aliases():
        if modules.setdefault(module, alias) != alias:
            yield f"{path.relative_to(TOP)}: {module} as {alias}, and not as {modules[module]}"
        elif named.setdefault(alias, module) != module:
            yield f"{path.relative_to(TOP)}: {alias} is {named[alias]}, and not {module}"


def files():
    return sorted(path for path in TOP.glob("crates/*/*/**/*.antt") if path.relative_to(TOP).parts[2] != "out")


def main(words):
    if words not in ([], ["--check"]):
        wrong_words(__doc__)
    others = [(path, text) for path in files() if (text := rewritten(path.read_text())) != path.read_text()]
    for path, text in [] if words else others:
        path.write_text(text)
    wrong = [*two_meanings(), *(f"{path.relative_to(TOP)}: its imports are not as scripts/gate/imports.py leaves them" for path, _ in others if words)]
    print("\n".join(wrong), end="\n" if wrong else "")
    return 1 if wrong else 0


if __name__ == "__main__":
    sys.exit(main(sys.argv[1:]))
