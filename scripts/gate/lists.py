#!/usr/bin/env python3
"""Compares the test vectors that stand as definitions (`specs/vectors` of three crates) with those that stand as files (`NAME.tokens`
in `data` of crates/vectors, in bindings/plain/tests/data and in examples). A list has one name: that of the first definition which has it, `VectorNextName` or
`next_name`. Fails, and names each case, if

- a file has the list of a definition, and another name; or a definition's name, and another list;
- files of one list have two names, or files of one name two lists;
- two definitions claim the same of one list;
- the events, the nodes or the error of a file are not those of a definition of its list.

    python3 scripts/gate/lists.py             checks
    python3 scripts/gate/lists.py --all       prints each list that stands twice or more: its definitions, and its files

Lists are the same up to their marks and their stream's encoding; texts count, since some decide, such as a handle. Marks of what
is claimed are compared if those of the tokens are the same, and of the source's own error only its kind and its words. Left out
are names of the YAML test suite, and those of BY_FORM.

Run by check.sh.
"""
import re
import sys
from collections import defaultdict
from pathlib import Path

sys.path.insert(0, str(Path(__file__).resolve().parents[1] / "parts"))
from usage import no_words  # noqa: E402

from notation import Notation

TOP = Path(__file__).resolve().parents[2]
NOTATIONS = [
    "libyaml_grammar/specs/vectors/VectorNotation", "libyaml_grammar/specs/vectors/Vectors", "libyaml_grammar/specs/vectors/PartialVectors",
    "libyaml_graphs/specs/vectors/LoadVectors", "rust_original/specs/vectors/Notation", "rust_original/specs/vectors/ExampleVectors",
    "rust_original/specs/vectors/AlikeVectors", "rust_original/specs/vectors/DifferenceVectors", "rust_original/specs/vectors/TextVectors",
]
OTHERS = {"StackVectors", "EmptyNodeVectors"}  # files of test vectors without lists
CLAIMS = ("parse", "loads_within")  # left as they stand
FILES = ["crates/vectors/data/**/*.tokens", "bindings/plain/tests/data/**/*.tokens", "examples/*.tokens"]
SUITE = "suite"  # whose names are those of the YAML test suite
BY_FORM = {  # named after what isn't compared: encodings, marks and how lines are written
    "encoding_any", "encoding_utf8", "encoding_utf16le", "encoding_utf16be", "index_out_of_range", "largest_column", "no_last_line_feed",
}
WORDS = {"SINGLE_QUOTED": "single", "DOUBLE_QUOTED": "double", "true": "1", "false": "0"}
MARK = re.compile(r"\d+:\d+:\d+$")
TOKEN_LINE = re.compile(r"[A-Z-]+ \d+:\d+:\d+ \d+:\d+:\d+( \S+)*")


# Values as lines (docs/DEFINITIONS.md, "Lines"): each a list of words.


def word(value):
    """The word of an encoding, a style or an error's kind; a flag."""
    short = re.sub(r"^YAML_|_(SCALAR|SEQUENCE|MAPPING)_STYLE$|_ENCODING$|_ERROR$", "", value[0])
    return WORDS.get(short, short.lower())


def text(codes):
    return "=" + "".join(chr(code) if 0x20 < code < 0x7F and code != 0x25 else f"%{code:02X}" for code in codes)


def optional(value):
    return "-" if value == ("None",) else text(value[1])


def mark(place):
    return f"{place['index']}:{place['line']}:{place['column']}"


def marks(value):
    return [mark(value["start_mark"]), mark(value["end_mark"])]


def version(value):
    return f"{value['major']}.{value['minor']}"


def directives(value):
    asked = value["version_directive"]
    declared = [text(part) for one in value["tag_directives"] for part in (one["handle"], one["prefix"])]
    return ["-" if asked == ("None",) else version(asked[1]), str(len(value["tag_directives"])), *declared]


def kind(name):
    """`BlockEntry` as `BLOCK-ENTRY`."""
    return re.sub(r"(?<=[a-z])(?=[A-Z])", "-", name).upper()


def field(name, value):
    if name in ("anchor", "tag"):
        return text(value) if isinstance(value, list) else optional(value)
    return text(value) if isinstance(value, list) else word(value)


def line(value):
    """The line of a token or an event."""
    name, *given = value["content"]
    rest = []
    if name == "VersionDirective":
        rest = [version(given[0])]
    elif name == "DocumentStart" and given:
        rest = [word(given[0]["implicit"]), *directives(given[0])]
    elif given:
        rest = [field(*both) for both in given[0].items()]
    return [kind(name), *marks(value), *rest]


def node_line(number, node):
    name, content = node["content"]
    rest = [text(content["value"])] if name == "Scalar" else []
    rest.append(word(content["style"]))
    if name == "Sequence":
        rest += [str(len(content["items"])), *map(str, content["items"])]
    elif name == "Mapping":
        rest += [str(len(content["pairs"])), *(f"{pair['key']}:{pair['value']}" for pair in content["pairs"])]
    return [str(number), name.upper(), *marks(node), text(node["tag"]), *rest]


def error_lines(error):
    """The lines of an error; of the source's own only its kind and its words, since each source has its own places."""
    said = bytes(error["problem"][1]).decode().split(" ") if error["problem"] != ("None",) else ["-"]
    if word(error["error"]) == "reader":
        return [["FAULT", "reader", *said]]
    lines = [["FAULT", word(error["error"]), mark(error["problem_mark"]), *said]]
    if error["context"] != ("None",):
        lines.append(["CONTEXT", mark(error["context_mark"]), *bytes(error["context"][1]).decode().split(" ")])
    return lines


def run_lines(events, ending):
    return [line(event) for event in events] + (error_lines(ending[1]) if ending[0] == "Fails" else [])


def load_lines(loads):
    lines = []
    for result, value in loads:
        if result == "Err":
            lines += error_lines(value)
        elif value["nodes"]:
            flags = [word(value["start_implicit"]), word(value["end_implicit"])]
            lines.append(["DOCUMENT", *marks(value), *flags, *directives(value)])
            lines += [node_line(number, node) for number, node in enumerate(value["nodes"], 1)]
    return lines


# Definitions and files.


class Vector:
    """What a definition claims, in a word, and of its tokens the lines of the files `NAME.WHAT` of some endings."""

    def __init__(self, name, claim, tokens, **claimed):
        self.name, self.claim, self.claimed = name, claim, claimed
        self.tokens = [line(token) for token in tokens]

    def file_name(self):
        return re.sub(r"(?<!^)(?=[A-Z])", "_", self.name.removeprefix("Vector")).lower()


def vector(name, value):
    """A definition's vector; none if it claims nothing of a list of tokens."""
    head, *given = value
    if head == "IsRun":
        return Vector(name, head, given[0], events=run_lines(given[2], given[3]))
    if head == "IsLoads":
        return Vector(name, head, given[0], nodes=load_lines(given[2]))
    if head == "IsBoundedLoads":
        return Vector(name, f"{head} {given[0]}", given[1], **{f"nodes@{given[0]}": load_lines(given[3])})
    if head == "LoadsThere":
        return Vector(name, f"{head} {given[0]}", given[1])
    if head == "≡" and given[0][0] == "loads_within":
        return Vector(name, f"loads there within {given[0][1]}", given[0][2])
    if head == "≡" and given[0][0] == "parse":
        here, loads = given[1]["here"], given[1]["loads"]
        claimed = {"nodes": load_lines(loads)} if here == given[1]["there"] else {}
        return Vector(name, "run there and here", given[0][1], events=run_lines(here[1], here[2][1]), **claimed)
    return None


def vectors():
    """Those of all definitions, in their order."""
    files = [TOP / "crates" / f"{name}.antt" for name in NOTATIONS]
    unread = {path for path in TOP.glob("crates/*/specs/vectors/*Vectors.antt") if path not in files and path.stem not in OTHERS}
    if unread:
        sys.exit("not in NOTATIONS or OTHERS: " + ", ".join(str(path.relative_to(TOP)) for path in sorted(unread)))
    notation = Notation(files, CLAIMS)
    found = {name: vector(name, notation.value(name)) for name in notation.equations if name.startswith("Vector")}
    if unknown := [name for name, one in found.items() if one is None and "list (" in notation.text(name)]:
        sys.exit("claims of a form that isn't known: " + ", ".join(unknown))
    return [one for one in found.values() if one]


def lines_of(path):
    text = path.read_bytes().decode(errors="surrogateescape")
    return [one.split(" ") for one in text.removesuffix("\n").split("\n")] if text else []


def lists():
    """The files of tokens, with their lines. One with another line is no list."""
    files = {path: lines_of(path) for pattern in FILES for path in sorted(TOP.glob(pattern))}
    return {path: lines for path, lines in files.items() if lines and all(TOKEN_LINE.fullmatch(" ".join(one)) for one in lines)}


def unmarked(lines):
    """Lines without their marks, and a stream's start without its encoding."""
    lines = [[one for one in words if not MARK.match(one)] for words in lines]
    return [words[:1] if words[0] == "STREAM-START" else words for words in lines]


def shape(lines):
    """What is the same in two lists that are the same."""
    return tuple(map(tuple, unmarked(lines)))


def is_free(path):
    """Whether a file's name isn't ours to give, or says what isn't compared."""
    return path.parent.name == SUITE or path.stem in BY_FORM


def shown(path):
    return str(path.relative_to(TOP).with_suffix(""))


# What is wrong.


def wrong_names(defined, files):
    first, named = {}, {}
    for one in defined:
        first.setdefault(shape(one.tokens), one)
        named[one.file_name()] = one
    for path, lines in files.items():
        if is_free(path):
            continue
        one = first.get(shape(lines))
        if one and one.file_name() != path.stem:
            yield f"{shown(path)} is the list of {one.name}, {one.file_name()}"
        elif not one and path.stem in named:
            yield f"{shown(path)} is not the list of {named[path.stem].name}"


def wrong_files(files):
    names, lists = defaultdict(dict), defaultdict(dict)
    for path, lines in files.items():
        names[path.stem].setdefault(shape(lines), path)
        if not is_free(path):
            lists[shape(lines)].setdefault(path.stem, path)
    for name, found in names.items():
        if len(found) > 1:
            yield f"{name} is more than one list: " + ", ".join(map(shown, found.values()))
    for found in lists.values():
        if len(found) > 1:
            yield "one list has more than one name: " + ", ".join(map(shown, found.values()))


def wrong_claims(defined):
    made = {}
    for one in defined:
        other = made.setdefault((one.claim, str(one.tokens)), one)
        if other is not one:
            yield f"{one.name} claims of a list what {other.name} claims"


def step_lines(lines):
    """Those of `NAME.steps` for lines of events and an error: of the error only its marks."""
    events = [words for words in lines if words[0] not in ("FAULT", "CONTEXT")]
    errors = lines[len(events):]
    if errors and errors[0][1] == "parser":
        events.append(["FAULT", errors[0][2], errors[1][1] if errors[1:] else "0:0:0"])
    return events


def stored_lines(path):
    """A file's lines; the place of the source's own error, the number of a step's error and what differs from libyaml left out."""
    lines = lines_of(path)
    if path.suffix == ".steps":
        return [["FAULT", *words[2:]] if words[0] == "FAULT" else words for words in lines if words[0] != "DIFFERS"]
    return [[*words[:2], *words[3:]] if words[:2] == ["FAULT", "reader"] else words for words in lines]


def first_difference(some, others):
    for place, both in enumerate(zip(some, others)):
        if both[0] != both[1]:
            return place
    return None if len(some) == len(others) else min(len(some), len(others))


def claims_of_files(defined, files):
    """Each file that a run or a load gives, with a definition of its list, what this claims, and whether the marks are the same."""
    by_shape = defaultdict(list)
    for one in defined:
        by_shape[shape(one.tokens)].append(one)
    for tokens, lines in files.items():
        for one in by_shape[shape(lines)]:
            claimed = dict(one.claimed)
            if "events" in claimed:
                claimed["steps"] = step_lines(claimed["events"])
            for what, claim in claimed.items():
                path = tokens.with_name(f"{tokens.stem}.{what}")
                if path.exists():
                    yield path, one, claim, one.tokens == lines


def wrong_lines(claims):
    for path, one, claim, has_marks in claims:
        found = stored_lines(path)
        place = first_difference(claim, found) if has_marks else first_difference(unmarked(claim), unmarked(found))
        if place is not None:
            yield f"{path.relative_to(TOP)}, line {place + 1}: {one.name} claims another line"


def main():
    if sys.argv[1:] not in ([], ["--all"]):
        sys.exit(__doc__)
    defined = vectors()
    files = lists()
    if sys.argv[1:]:
        together = defaultdict(list)
        for name, lines in [*((one.name, one.tokens) for one in defined), *((shown(path), lines) for path, lines in files.items())]:
            together[shape(lines)].append(name)
        print("\n".join(" ".join(names) for names in together.values() if len(names) > 1))
        return
    claims = list(claims_of_files(defined, files))
    wrong = [*wrong_names(defined, files), *wrong_files(files), *wrong_claims(defined), *wrong_lines(claims)]
    if wrong or not claims:
        sys.exit("\n".join(wrong or ["nothing was compared"]))
    print(f"{len(defined)} definitions with a list, {len(files)} files of one; {len(claims)} files of events or nodes compared")


if __name__ == "__main__":
    no_words(__file__)
    main()
