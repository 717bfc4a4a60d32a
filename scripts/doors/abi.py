#!/usr/bin/env python3
"""Compares what crosses to C with what it was when the shared library's number was last raised:

    python3 scripts/doors/abi.py [--write]

bindings/c/abi.txt has that number, the layout of each struct as layout.py writes it, and each function that a header declares.
What the bindings in Python and Rust have of the headers by hand is compared too: sizes and places in structs, the parameters of
functions, numbers of results, words of errors. The exit status is 1 if one of them is another. With --write the file is written, which needs a higher number in
bindings/c/ABI_VERSION if a struct or function that was there has changed or is gone.

Run by check.sh.
"""
import contextlib
import io
import re
import sys
from pathlib import Path

import layout

TOP = Path(__file__).resolve().parents[2]
sys.path.insert(0, str(TOP / "scripts/parts"))
from usage import wrong_words  # noqa: E402

C = TOP / "bindings" / "c"
FUNCTION = re.compile(r"^[a-z][\w ]*\bpokhvizi_\w+\([^;{]*\);", re.M)


def lines():
    """The layout of the structs, and the declarations of the functions, each on one line."""
    written = io.StringIO()
    with contextlib.redirect_stdout(written):
        layout.write_structs()
    yield from (line for line in written.getvalue().splitlines() if not line.startswith("#include"))
    for header in sorted((C / "include" / "pokhvizi").glob("*.h")):
        for found in FUNCTION.findall(header.read_text()):
            yield " ".join(found.split())


# ---- What bindings have by hand ----

BINDINGS = C.parent
ENUM = re.compile(r"^enum \{\n(.*?)\}", re.M | re.S)
WORDS = re.compile(r"words\[\d+\]\[2\] = \{\n(.*?)\n    \};", re.S)
PAIR = re.compile(r'\(\s*b"(.*?)\\0",\s*(?:None|Some\(b"(.*?)\\0"\)),?\s*\)', re.S)
RUST_FUNCTION = re.compile(r'\bfn (pokhvizi_\w+)\((.*?)\)(?: -> (\w+))?(?: \{|;)', re.S)
# the files that declare the headers' functions in Rust
RUST_DOORS = ("c/door.rs", "rust/src/door.rs")
FORMAT = re.compile(r"(\d*)([xBQ])")
SIZES = {"x": 1, "B": 1, "Q": 8}
# Python: the name of a format and the fields that it reads
FORMATS = (("HANDLE", "pokhvizi_handle_t", "handle.place handle.length prefix.place prefix.length"),
           ("EVENT", "pokhvizi_event_t", "kind has_anchor has_tag implicit quoted_implicit is_flow start_mark.index end_mark.index"),
           ("PROBLEM", "pokhvizi_fault_t", "problem context_mark.index problem_mark.index"))


def places(fields, start=0, path=""):
    """The place and size of each number in a struct, by its path."""
    for name, offset, kind in fields:
        if kind.fields:
            yield from places(kind.fields, start + offset, f"{path}{name}.")
        else:
            yield path + name, (start + offset, kind.size)


def read_by(form):
    """The place and size of each number that a format of Python's module struct reads, and how many bytes it has."""
    found, offset = [], 0
    for count, letter in FORMAT.findall(form):
        for _ in range(int(count or 1)):
            found += [(offset, SIZES[letter])] if letter != "x" else []
            offset += SIZES[letter]
    return found, offset


def one(pattern, text, name):
    found = re.findall(pattern, text, re.S)
    if len(found) != 1:
        sys.exit(f"{name}: {len(found)} places have the form {pattern}")
    return found[0]


def differing_structs(structs):
    """What is another in Python's structs, in words."""
    python = (BINDINGS / "python/src/pokhvizi/__init__.py").read_text()
    size, counts = one(r'RECORD, COUNTS = (\d+), struct\.Struct\("=(.*?)"\)', python, "__init__.py")
    steps = structs["pokhvizi_steps_t"]
    if int(size) != steps.size or read_by(counts)[0] != [dict(places(steps.fields))["machine.marks_count"]]:
        yield "__init__.py: RECORD or COUNTS"
    for name, struct, fields in FORMATS:
        there = dict(places(structs[struct].fields))
        wanted = [there[field] for field in fields.split()], structs[struct].size
        if read_by(one(rf'{name} = struct\.Struct\("=(.*?)"\)', python, "__init__.py")) != wanted:
            yield f"__init__.py: {name}"


def c_type(rust):
    """C's type for a parameter's or a result's in Rust."""
    names = {"Mark": "pokhvizi_mark_t", "": "void", **{name: c for name, (c, _) in layout.NUMBERS.items()}}
    for _, _, structs, *_ in layout.HEADERS:
        names.update(structs)
    found = re.fullmatch(r"(&|&mut |\*const |\*mut )?(\w*)", rust)
    before = {"&": "const ", "*const ": "const "}.get(found[1], "")
    return before + names[found[2]] + (" *" if found[1] else "")


def differing_functions():
    """What is another in Rust's declarations of the headers' functions, in words."""
    declared = {}
    for header in ("steps", "compose"):
        for found in FUNCTION.findall((C / "include/pokhvizi" / f"{header}.h").read_text()):
            result, name, words = re.fullmatch(r"(\w+) (\w+)\((.*)\);", " ".join(found.split())).groups()
            declared[name] = [result, *(re.fullmatch(r"(.*?)(\w+)", word).groups() for word in words.split(", "))]
    for file in RUST_DOORS:
        there = {}
        for name, words, result in RUST_FUNCTION.findall((BINDINGS / file).read_text()):
            pairs = [word.strip().split(": ") for word in words.split(",") if word.strip()]
            there[name] = [c_type(result), *((re.sub(r"(\w)$", r"\1 ", c_type(kind)), parameter) for parameter, kind in pairs)]
        wanted = dict(declared)
        if file.startswith("rust"):
            wanted.pop("pokhvizi_carrier")  # it has a hash table in its place
        yield from (f"{file}: {name}" for name in sorted(set(wanted) | set(there)) if wanted.get(name) != there.get(name))


def names_of(header):
    """The names of each enum of a header, without what all begin with."""
    return [[name.split(" = ") for name in re.findall(r"POKHVIZI_(\w+(?: = \d+)?)", found)] for found in ENUM.findall(header)]


def differing_numbers(header, rust, python=None):
    """What is another in the results of a call, in words."""
    names = names_of(header)[0]
    for number, (name, *_) in enumerate(names):
        found = re.findall(rf"^(?:pub )?const {name}: \w+ = (\d+);", rust, re.M)
        if found and found != [str(number)]:
            yield f"Rust's {name}"
    if len(re.findall(r"^(?:pub )?const [A-Z_]+: u32 = ", rust, re.M)) < len(names) - 2:
        yield "the count of Rust's numbers"
    if python is not None and python.split(", ") != [name for name, *_ in names][:len(python.split(", "))]:
        yield "Python's numbers"


def words_of(header):
    """The words of a header's table, in pairs."""
    strings = re.findall(r'\{"(.*?)", (?:NULL|"(.*?)")\}', WORDS.search(header)[1])
    return [tuple(pair) for pair in strings]


def words_of_types(header):
    """The words of each type of token, by its number, in the order in which they are told."""
    table = one(r"\*const words\[22\] = \{\n(.*?)\n    \};", header, "steps.h")
    words = re.findall(r'"(.*?)"', table)
    order = [int(number) for number in one(r"order\[20\] = \{(.*?)\}", header, "steps.h").split(", ")] + [2]
    return [(kind, words[kind]) for kind in order]


def numbers_of_types(header):
    """The number of each type of token, by its name."""
    listed = one(r"Tokens:  (.*?)\n \* Events:", header, "steps.h")
    return {name: int(number) for number, name in re.findall(r"(\d+) ([A-Z-]+)", listed)}


def differing_types(header, rust):
    """What is another in the words of types of token, of Rust and of Python, in words."""
    wanted, numbers = words_of_types(header), numbers_of_types(header)
    there = re.findall(r'\(YAML_(\w+)_TOKEN, "(.*?)"\)', one(r"const WORDS: .*? = \[\n(.*?)\n\];", rust, "errors.rs"))
    if [(numbers[name.replace("_", "-")], words) for name, words in there] != wanted:
        yield "Rust's WORDS"
    python = one(r"\nWORDS = \{\n(.*?)\n\}", (BINDINGS / "python/src/pokhvizi/__init__.py").read_text(), "__init__.py")
    there = re.findall(r'(\d+): (?:"(.*?)"|None)', python)
    if [(int(kind), words or dict(wanted)[int(kind)]) for kind, words in there] != wanted:
        yield "Python's WORDS"


def differing():
    """What the bindings have by hand and the headers otherwise."""
    headers = {name: (C / "include/pokhvizi" / f"{name}.h").read_text() for name in ("steps", "compose")}
    rust = {name: (BINDINGS / "rust/src" / f"{name}.rs").read_text() for name in ("steps", "composer", "fault", "errors")}
    yield from differing_structs({struct.name: struct for struct in layout.structs()})
    yield from differing_functions()
    python = one(r"^    (WANTS, [A-Z_, ]+) = range\(\d+\)$".replace("^", "(?m:^)").replace("$", "(?m:$)"),
                 (BINDINGS / "python/src/pokhvizi/__init__.py").read_text(), "__init__.py")
    yield from differing_numbers(headers["steps"], rust["steps"], python)
    yield from differing_numbers(headers["compose"], rust["composer"])
    too_deep = re.search(r"POKHVIZI_TOO_DEEP = (\d+)", headers["steps"])[1]
    if f"const TOO_DEEP: usize = {too_deep};" not in rust["steps"]:
        yield "Rust's TOO_DEEP"
    yield from differing_types(headers["steps"], rust["errors"])
    for header, table in (("steps", "PROBLEMS"), ("compose", "REFUSALS")):
        there = [tuple(pair) for pair in PAIR.findall(one(rf"const {table}: .*? = \[\n(.*?)\n\];", rust["fault"], "fault.rs"))]
        if there != words_of(headers[header]):
            yield f"Rust's {table}"


def main():
    words = sys.argv[1:]
    if words not in ([], ["--write"]):
        wrong_words(__doc__)
    number, now = (C / "ABI_VERSION").read_text().strip(), list(lines())
    path = C / "abi.txt"
    first, *before = path.read_text().splitlines() if path.exists() else [f"ABI {number}"]
    gone = [line for line in before if line not in set(now)]
    if words:
        if gone and first == f"ABI {number}":
            sys.exit(f"bindings/c/ABI_VERSION has to rise, since this was there and isn't now:\n{gone[0]}")
        path.write_text("\n".join([f"ABI {number}", *now]) + "\n")
    elif [first, *before] != [f"ABI {number}", *now]:
        other = next((line for line in now if line not in set(before)), gone[0] if gone else first)
        sys.exit(f"bindings/c/abi.txt is another, which `abi.py --write` writes: {other}")
    by_hand = list(differing())
    if by_hand:
        sys.exit("a binding has other numbers or words than the headers: " + ", ".join(by_hand))


if __name__ == "__main__":
    main()
