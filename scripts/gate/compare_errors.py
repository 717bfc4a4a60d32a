#!/usr/bin/env python3
"""Compares the errors of broken texts: what a front tells, what was written down, libyaml's own words and PyYAML's.

    python3 scripts/gate/compare_errors.py [--write] FRONT..

FRONT is the command of a front, as `python3 examples/yaml_lines.py` or a built `examples/yaml.c`; it is called with `nodes` and
each file of `scripts/parts/broken`. What stands in `NAME.fault` is expected of it. libyaml (through PyYAML's CLoader) and PyYAML
itself parse the same text; if one of them says something else, `scripts/parts/broken/differences` names that with the reason,
one line each: NAME SIDE REASON. The exit status is 1 if an error is another than expected, a difference is not named, a
named one is none or of no text, or a text or its error stands alone. With --write, `NAME.fault` is written from the front.

Run by check_programs.sh.
"""
import re
import subprocess
import sys
from pathlib import Path

import yaml

PARTS = Path(__file__).resolve().parents[1] / "parts"
sys.path.insert(0, str(PARTS))
from usage import wrong_words  # noqa: E402

BROKEN = PARTS / "broken"
FAULT = re.compile(r"^FAULT .*\n(?:CONTEXT .*\n)?\Z", re.MULTILINE)
SIDES = {"libyaml": yaml.CLoader, "pyyaml": yaml.Loader}
KINDS = [
    (yaml.reader.ReaderError, "reader"),
    (yaml.scanner.ScannerError, "scanner"),
    (yaml.parser.ParserError, "parser"),
    (yaml.composer.ComposerError, "composer"),
]


def front_fault(front, path):
    """The last lines of what the front writes of a broken text; it has to end with status 1."""
    done = subprocess.run([*front, "nodes", str(path)], stdout=subprocess.PIPE, stderr=subprocess.PIPE)
    found = FAULT.search(done.stdout.decode())
    told = [line for line in done.stderr.splitlines() if not line.startswith((b"yaml: expected: ", b"yaml: name: "))]
    if done.returncode != 1 or found is None or len(told) != 1:
        return f"no fault: status {done.returncode}, {done.stderr.decode()}"
    return found.group()


def mark_text(mark):
    return f"{mark.index}:{mark.line}:{mark.column}"


def own_fault(loader, source):
    """The fault that a loader of PyYAML tells, in the form of a front's lines; a reader's has no mark."""
    try:
        for _ in yaml.compose_all(source, Loader=loader):
            pass
        return "none\n"
    except yaml.reader.ReaderError as fault:
        return f"FAULT reader - {fault.reason}\n"
    except yaml.MarkedYAMLError as fault:
        kind = next(name for error, name in KINDS if isinstance(fault, error))
        lines = f"FAULT {kind} {mark_text(fault.problem_mark)} {fault.problem}\n"
        if fault.context is not None and fault.context_mark is not None:
            lines += f"CONTEXT {mark_text(fault.context_mark)} {fault.context}\n"
        return lines


def without_reader_mark(fault):
    return re.sub(r"^FAULT reader \S+", "FAULT reader -", fault)


def read_differences():
    named = {}
    for line in (BROKEN / "differences").read_text().splitlines():
        name, side, reason = line.split(" ", 2)
        named[name, side] = reason
    return named


def unpaired(texts, named):
    """What is wrong with the folder: a text or a fault without the other, a named difference of no text or no side."""
    names = {path.stem for path in texts}
    faults = {path.stem for path in BROKEN.glob("*.fault")}
    for name in sorted(names ^ faults):
        yield f"{name}: {'no .fault' if name in names else 'no .yaml'}"
    for name, side in sorted(named):
        if name not in names or side not in SIDES:
            yield f"{name} {side}: named, but there is no such text or side"


def compare(front, path, named):
    """What is wrong with one text."""
    if not path.with_suffix(".fault").exists():
        return
    expected, told = path.with_suffix(".fault").read_text(), front_fault(front, path)
    if told != expected:
        yield f"{path.stem}: the front says\n{told}and not\n{expected}"
    for side, loader in SIDES.items():
        own = own_fault(loader, path.read_bytes())
        differs = own != without_reader_mark(told)
        if differs and (path.stem, side) not in named:
            yield f"{path.stem} {side}: not named, it says\n{own}and the front\n{told}"
        if not differs and (path.stem, side) in named:
            yield f"{path.stem} {side}: named, but it says the same"


def main():
    front = [word for word in sys.argv[1:] if word != "--write"]
    if not front or front[0].startswith("-"):
        wrong_words(__doc__)
    texts = sorted(BROKEN.glob("*.yaml"))
    if "--write" in sys.argv:
        for path in texts:
            path.with_suffix(".fault").write_text(front_fault(front, path))
        return
    named = read_differences()
    wrong = [*unpaired(texts, named), *(line for path in texts for line in compare(front, path, named))]
    print("\n".join([*wrong, f"{len(texts)} broken texts, {len(named)} named differences, {len(wrong)} wrong"]))
    sys.exit(1 if wrong else 0)


if __name__ == "__main__":
    main()
