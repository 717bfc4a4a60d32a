#!/usr/bin/env python3
"""Lists what the build of the crate `pokhvizi` leaves out of the proved source text, and fails if that is more than the prover reads.

    python3 scripts/gate/left_out.py [KIND]

Each line of a file that rustc is given is the same line of a file `.rt`. A line that differs must be of one of the KINDS below; this
script finds them by itself, with no code of the build's. Counts of each are printed; with a KIND each of its lines, beside what
stands in its place. A line of no kind is printed, and the status is 1. So is it if one of WRONG, changes that such a build must not
make, passes.

Run by plain_rust.sh.
"""
import json
import os
import re
import subprocess
import sys
import tempfile
from collections import Counter
from pathlib import Path

TOP = Path(__file__).resolve().parents[2]
sys.path.insert(0, str(TOP / "scripts/parts"))
from usage import wrong_words  # noqa: E402

KINDS = {
    "ghost": "an item that only the prover reads: `ghost use`, `ghost NAME = { .. };`, with its comment",
    "clause": "`requires { .. }` or `ensures { .. }`",
    "tactic": "`#[tactic(..)]`",
    "laws": "a module of laws, which nothing calls, and names from it",
    "drop": "`Drop` in the bounds and derived traits of a type, which the prover's compiler asks for",
    "error": "`derive(Error)` and the words of its variants, from which the Display at the file's end is made",
    "path": "a path that begins otherwise: `crate::NAME::`, `core` or `crate::kit` in place of `std`",
    "tag": "`#[repr(..)]` before an enum with fields, which says where rustc puts its tag",
    "form": "the form of `Display`, of `drop` and of functions for C",
    "module": "a module of the types with texts, which the crate without `alloc` lacks, and names from it",
}
# What may stand at the end of a file: the prelude of texts, and the Display of an enum of errors.
ADDED = re.compile(
    r"#\[allow\(unused_imports\)\] use crate::kit::\{(AllocGlobal, HostRuntime, )?String, Vec\};|impl core::error::Error for \w+ \{\}|"
    r"impl core::fmt::Display for \w+ \{ fn fmt\(&self, f: &mut core::fmt::Formatter<'_>\) -> core::fmt::Result \{ match self \{ "
    r"(Self::\w+(\(field\) => write!\(f, \"[^\"]*\", field\)| => f\.write_str\(\"[^\"]*\"\)),)+ \} \} \}"
)
# A file, and what must not be made of it.
WRONG = [
    ("fn f() {\n    g();\n}\n", "fn f() {\n\n}\n"),
    ("fn f()\n    ensures { a }\n{\n    g();\n}\n", "fn f()\n\n{\n    h();\n}\n"),
    ("/// Says { much.\nfn f() {\n    if a { g(); }\n}\n", "/// Says { much.\nfn f() {\n    if a { }\n}\n"),
    ("ghost use A.{b};\nfn f() {}\n", "\n\n"),
    ("const A: u8 = 1;\n", "const A: u8 = 2;\n"),
    ("#[derive(Copy, Drop)]\nstruct A;\n", "#[derive(Clone)]\nstruct A;\n"),
    ("mod a;\n", "\n"),
    ("pub enum A {\n", "#[repr(u8)] pub enum A {\n"),
    ("pub(crate) enum Taken {\n", "#[repr(C)] pub(crate) enum Taken {\n"),
    ("fn f() {}\n", "fn f() {}\nfn g() {}\n"),
]


def built(directory):
    """The folder of what rustc is given."""
    words = ["cargo", "build", "-q", "--lib", "--message-format=json"]
    environment = dict(os.environ, CARGO_TARGET_DIR=directory, CARGO_NET_OFFLINE="true")
    output = subprocess.run(words, cwd=TOP, env=environment, check=True, stdout=subprocess.PIPE).stdout
    messages = [json.loads(line) for line in output.splitlines()]
    return Path(next(message["out_dir"] for message in messages if message["reason"] == "build-script-executed"))


def end_of(lines, first, opening, closing, ends):
    """The last line of an item that begins on this line: its brackets are closed, and it ends with one of these."""
    depth = 0
    for number in range(first, len(lines)):
        line = lines[number]
        depth += line.count(opening) - line.count(closing)
        if depth == 0 and line.rstrip().endswith(ends):
            return number
    return first


def prover_lines(lines):
    """The lines that only the prover reads, with the kind of each."""
    found, number = {}, 0
    while number < len(lines):
        text, last, kind = lines[number].strip(), number, None
        if text.startswith("ghost "):
            kind, last = "ghost", end_of(lines, number, "{", "}", (";", ","))
            before = number - 1
            while not text.startswith("ghost use ") and before >= 0 and lines[before].strip().startswith("///"):
                found[before] = kind
                before -= 1
        elif re.match(r"(requires|ensures)( \w+)? \{", text):
            kind, last = "clause", end_of(lines, number, "{", "}", ("}", "};"))
        elif re.match(r"#!?\[tactic\(", text):
            kind, last = "tactic", end_of(lines, number, "[", "]", ("]",))
        elif re.match(r"(pub )?mod laws;|pub use (\w+::)?laws( as \w+;|::)", text):
            kind, last = "laws", end_of(lines, number, "{", "}", (";",))
        elif text == "use thiserror::Error;":
            kind = "error"
        for place in range(number, last + 1):
            if kind:
                found[place] = kind
        number = last + 1
    return found


def rewritten(line, name, crates):
    """What may stand in place of a line, with the kinds of what is changed."""
    kinds, out = [], line

    def change(kind, pattern, instead):
        nonlocal out
        new = re.sub(pattern, instead, out)
        if new != out:
            kinds.append(kind)
        out = new

    if re.match(r"\s*#\[derive\(", out):
        had_error = "Error" in out
        derived = [word for word in re.search(r"\((.*)\)", out)[1].split(", ") if word not in ("Drop", "Error")]
        change("error" if had_error else "drop", r"\(.*\)", f"({', '.join(derived)})")
    change("error", r"^\s*#\[error\(\".*\"\)\]$", "")
    change("drop", r"\+ Drop\b", "")
    change("laws", r"\blaws as \w+,", "")
    change("tag", r"^(pub\(crate\) enum Taken\b)", r"#[repr(u8)] \1")
    change("tag", r"^(pub enum unnamed_yaml_event_t_data\b)", r"#[repr(u64)] \1")
    change("form", r"#\[unsafe\(no_mangle\)\]", "")
    change("form", r'extern "C" fn', "fn")
    change("form", r"fn fmt<W: fmt::Write>\(&self, f: &mut fmt::Formatter<W>\)", "fn fmt(&self, f: &mut fmt::Formatter<'_>)")
    change("form", r"fn drop\(self\)", "fn drop(&mut self)")
    change("form", r"^(\s+)mut (\w+),$", r"\1 \2,")
    change("path", r"simdutf8::compat::", "core::str::")
    change("path", r"(?<![:\w])crate::", f"crate::{name}::")
    change("path", r"(?<![:\w])std::(alloc|collections|marker|vec)::", r"crate::kit::")
    change("path", r"(?<![:\w])std::(?=(env|io|process|rt|simd)\b|\{env, io\})", "crate::kit::")
    change("path", r"(?<![:\w])std::", "core::")
    change("path", r"(?<![:\w])(itoa|memchr|percent_encoding)::", r"crate::kit::\1::")
    change("path", rf"(?<![:\w])({'|'.join(crates)})::", r"crate::\1::")
    return out, kinds


def is_like(line, made):
    """Whether two lines are the same but for white space, and for the semicolon of a trait's function without body."""
    squeezed = ["".join(text.split()) for text in (line, made)]
    return squeezed[0] == squeezed[1] or squeezed[0] + ";" == squeezed[1] and squeezed[0].endswith((")", ">"))


def compare(source, made, name, crates):
    """The lines that differ: their number, their kind or None, what stood there and what stands there."""
    lines, new_lines = source.split("\n")[:-1], made.split("\n")[:-1]
    found, differing = prover_lines(lines), []
    for number, line in enumerate(lines):
        new = new_lines[number] if number < len(new_lines) else None
        if line == new:
            continue
        written, kinds = rewritten(line, name, crates)
        if new is not None and number in found and new.strip() in ("", ";"):
            kinds = [found[number]]
        elif new is None or not is_like(written, new):
            kinds = [None]
        differing += [(number + 1, kind, line, new) for kind in kinds or ["form"]]
    added = [(number + 1, None, "", line) for number, line in enumerate(new_lines) if number >= len(lines) and not ADDED.fullmatch(line)]
    return differing + added


def has_code(source):
    """Whether a module of laws has anything but imports, modules, and functions of one expression or none."""
    lines = source.split("\n")
    found = prover_lines(lines)
    rest = "\n".join(line for number, line in enumerate(lines) if number not in found and not line.strip().startswith("//"))
    rest = re.sub(r"(pub )?(use [^;]*;|mod \w+;)", "", rest)
    return re.sub(r"(pub )?fn \w+(<[^>]*>)?\([^()]*\)( -> \w+)?\s*\{[^{};]*;?\s*\}", "", rest).strip() != ""


def main():
    asked = sys.argv[1:]
    if len(asked) > 1 or any(kind not in KINDS for kind in asked):
        wrong_words(__doc__)
    counts, files, wrong, laws = Counter(), 0, 0, 0
    with tempfile.TemporaryDirectory() as directory:
        out = built(directory)
        # Not those that tests alone are given.
        crates = sorted(re.findall(r"pub mod (\w+);", (out / "crates.rs").read_text()))
        for name in crates:
            folder = TOP / "crates" / name / "src"
            for path in sorted(folder.glob("**/*.rt")):
                place = path.relative_to(folder)
                made = out / name / ("mod.rs" if place.name == "lib.rt" and place.parent == Path() else place.with_suffix(".rs"))
                source = path.read_text()
                if not made.exists():
                    laws += 1
                    if "laws" not in place.with_suffix("").parts or has_code(source):
                        wrong += 1
                        print(f"{path.relative_to(TOP)} is left out, and is no module of laws alone")
                    continue
                files += 1
                for number, kind, line, new in compare(source, made.read_text(), name, crates):
                    counts[kind] += 1
                    if kind is None or kind in asked:
                        print(f"{path.relative_to(TOP)}:{number}\n-{line}\n+{new}")
    wrong += counts.pop(None, 0)
    unseen = [pair for pair in WRONG if all(kind for _, kind, _, _ in compare(*pair, "a", ["b"]))]
    for pair in unseen:
        print("passes, and must not:", *pair, sep="\n")
    told = ", ".join(f"{kind} {counts[kind]}" for kind in KINDS if counts[kind])
    print(f"{files} files, {laws} of laws alone; lines: {told}; {wrong + len(unseen)} wrong")
    sys.exit(1 if wrong or unseen or not files else 0)


if __name__ == "__main__":
    main()
