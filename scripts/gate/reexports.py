#!/usr/bin/env python3
"""Fails if a crate that stands for those below it doesn't re-export a module of `specs/` that its public clauses reach.

    python3 scripts/gate/reexports.py

The public clauses are those of the items that the crate's root names, its own and those of the crates below; a clause reaches
the modules of the words that it cites, and of the words in their definitions. Declared types are named by Rust's own paths.

Run by check.sh.
"""
import re
import sys
from pathlib import Path

TOP = Path(__file__).resolve().parents[2]
sys.path.insert(0, str(TOP / "scripts/parts"))
from sources import CRATES, WORD, closure, imports, read_specs, reexports, sources  # noqa: E402
from usage import no_words  # noqa: E402

FACADES = ["unsafe_libyaml", "token_lines"]
ITEM = r"^pub (?:const )?(?:fn|struct|enum|trait|const|type) {}\b"


def module_files(crate, path):
    """The file of a public module, and those of its public modules."""
    if path.exists():
        yield crate, path
        for child in re.findall(r"^pub mod (\w+);", path.read_text(), re.M):
            yield from module_files(crate, path.with_suffix("") / (child + ".rt"))


def items(crate, path):
    """The crate, file and name of each item that the file declares or names in public."""
    for name in re.findall(ITEM.format(r"(\w+)"), path.read_text(), re.M):
        yield crate, path, name
    for where, name, _ in reexports(path):
        yield from resolved(where[0] if where[0] in CRATES else crate, name)


def resolved(crate, name):
    module = TOP / "crates" / crate / "src" / (name + ".rt")
    if re.search(rf"^pub mod {name};", (TOP / "crates" / crate / "src" / "lib.rt").read_text(), re.M):
        for owner, path in module_files(crate, module):
            yield from items(owner, path)
        return
    for path in sources(crate):
        if re.search(ITEM.format(name), path.read_text(), re.M):
            yield crate, path, name
            return
    for path in sources(crate):
        for where, other, _ in reexports(path):
            if other == name and where[0] in CRATES and where[0] != crate:
                yield from resolved(where[0], name)
                return


def public_items(crate):
    root = TOP / "crates" / crate / "src" / "lib.rt"
    found = set(items(crate, root))
    for child in re.findall(r"^pub mod (\w+);", root.read_text(), re.M):
        for owner, path in module_files(crate, root.parent / (child + ".rt")):
            found |= set(items(owner, path))
    return found


def header(text, start):
    """A function's line and clauses, up to its body, or a method's up to its end."""
    end = re.compile(r"\n\s*\{|\{\}|;\n|\{\n").search(text, start)
    return text[start : end.start() if end else len(text)]


def block(text, start):
    """From the start of an item to its closing brace at the left edge."""
    end = re.compile(r"^(\}|\{\})|;$", re.M).search(text, start)
    return text[start : end.end() if end else len(text)]


def without_bodies(text):
    return re.sub(r"(\n    \{| \{)\n(        .*\n|\n)*    \}", "", text)


def of_impl(text, found):
    """The clauses of an `impl` block: of its public functions, and all that stands in one of a trait."""
    whole = text[found.start() : re.compile(r"^\}", re.M).search(text, found.end()).end()]
    if " for " in found.group():
        yield text + re.sub(r"^ +", "", whole, flags=re.M), without_bodies(whole)
        return
    for method in re.finditer(r"^    pub (const )?fn ", whole, re.M):
        yield text, header(whole, method.start())


def clauses_of(crate, path, name):
    """The texts of an item's clauses, each behind a text with the imports that it uses."""
    text = path.read_text()
    start = re.search(ITEM.format(name), text, re.M)
    if re.match(r"pub (const )?fn", start.group()):
        yield text, header(text, start.start())
        return
    if "trait" in start.group():
        yield text, block(text, start.start())
    for file in sources(crate):
        text = file.read_text()
        for found in re.finditer(rf"^impl\b[^\n{{]*\b{name}\b[^\n]*\{{$", text, re.M):
            yield from of_impl(text, found)


def reached(crate, files):
    """The modules of specs/ that the public clauses of a crate reach."""
    seeds = set()
    for owner, path, name in sorted(public_items(crate)):
        for text, clauses in clauses_of(owner, path, name):
            known = imports(text)
            for word in {word.strip(".,;") for word in WORD.findall(re.sub(r"//.*", "", clauses))}:
                first, _, rest = word.partition(".")
                if word in known and known[word][1]:
                    seeds.add(known[word])
                elif rest and first in known:
                    seeds.add((known[first][0], rest.split(".")[0]))
    modules = {module for module, _ in closure(files, seeds)} | {module for module, _ in seeds if module in files}
    return sorted(modules)


def own_modules(folder, listing):
    """The files of a folder of specs/ that its listing declares, and those of its folders."""
    for name in re.findall(r"^pub mod (\w+)", listing.read_text(), flags=re.M):
        inner = folder / name
        if inner.is_dir():
            yield from own_modules(inner, inner.with_suffix(".antt"))
        else:
            yield inner.with_suffix(".antt")


def reexported(crate):
    """The modules that a crate's specs/Lib.antt names, each under the name that a user writes."""
    specs = TOP / "crates" / crate / "specs"
    found = {}
    for path in own_modules(specs, specs / "Lib.antt"):
        rest = path.relative_to(specs).with_suffix("").parts
        found[".".join(["Rattle", crate, "specs", *rest])] = rest[-1]
    for line in (specs / "Lib.antt").read_text().splitlines():
        if other := re.match(r"pub use (Rattle[\w.]+)(?: as (\w+))?", line):
            found[other.group(1)] = other.group(2) or other.group(1).split(".")[-1]
    return found


def main():
    files = read_specs()
    failed = False
    for crate in FACADES:
        told = reexported(crate)
        for module in reached(crate, files):
            if module not in told:
                failed = True
                print(f"crates/{crate}/specs/Lib.antt doesn't re-export {module}")
        for name in {name for name in told.values() if list(told.values()).count(name) > 1}:
            failed = True
            print(f"crates/{crate}/specs/Lib.antt has two modules {name}")
        for module in told:
            if module not in files and not module.startswith("Rattle.std"):
                failed = True
                print(f"crates/{crate}/specs/Lib.antt names {module}, which there is not")
    sys.exit(failed)


if __name__ == "__main__":
    no_words(__file__)
    main()
