#!/usr/bin/env python3
"""Fails if a worked example has no test vector that a program or a test runs, and names it.

    python3 scripts/gate/worked.py             checks
    python3 scripts/gate/worked.py --all       prints each worked example, and what it shows

A worked example is a list, a line or a call whose result the field's own words give, to the byte. They stand in three places:

- `crates/vectors/data/worked`: lists of tokens, with a line each in its `index`;
- `bindings/plain/tests/data/runs/worked`: runs of `yamltokens`, a line each: name, exit status, input, output, error output, words;
- `worked.txt` beside this script: calls, and lists that are computed.

The program `vectors` names each list in its stored `stdout` and counts its calls and computed lists there, so the gate names one that
differs or is gone. The file that a line of `worked.txt` names has to have the test vector in a line, below a line `# TABLE` if it has
such, and a test of `cargo test` to name the table, or to have its name. Another file that has a worked list's name has to have its bytes.

Run by check.sh.
"""
import re
import sys
from collections import defaultdict
from pathlib import Path

sys.path.insert(0, str(Path(__file__).resolve().parents[1] / "parts"))
from usage import no_words  # noqa: E402

TOP = Path(__file__).resolve().parents[2]
PROGRAM = TOP / "crates/vectors"
LISTS = PROGRAM / "data/worked"
TESTS = TOP / "bindings/plain/tests"
RUNS = TESTS / "data/runs/worked"
CALLS = Path(__file__).with_suffix(".txt")
ONE_TEXT = {".tokens", ".events", ".nodes"}


def lines_of(path):
    return path.read_text().splitlines()


def wrong_stored(names):
    """What the program's stored output says otherwise: which lists are as expected, how many calls and computed lists there are."""
    stored = lines_of(PROGRAM / "stdout")
    expected = [line[len("worked/") : -len(": as expected")] for line in stored if re.fullmatch(r"worked/\S+: as expected", line)]
    if expected != names:
        yield f"vectors/stdout names other lists: {', '.join(sorted(set(expected) ^ set(names))) or 'in another order'}"
    for file, name in ("calls", "calls"), ("large", "large lists"):
        count = sum(not line.startswith("# ") for line in lines_of(PROGRAM / "data" / file))
        if f"{name}: {count}, 0 differ" not in stored:
            yield f"vectors/stdout doesn't count {count} {name}"


def twice(names, place):
    for name in sorted({name for name in names if names.count(name) > 1}):
        yield f"{name}: {place} has it more than once"


def list_entries():
    """Each worked list: its name, its texts, what it shows."""
    for line in lines_of(LISTS / "index"):
        fields, _, shown = line.partition(": ")
        name, *others = fields.split(" ")
        yield name, ["events", "nodes", *others], shown


def wrong_lists():
    entries = list(list_entries())
    names = [name for name, _, _ in entries]
    wanted = {f"{name}.{text}": name for name, texts, _ in entries for text in ["tokens", *texts]}
    found = {path.name for path in LISTS.iterdir()} - {"index"}
    for file in sorted(wanted.keys() - found):
        yield f"{wanted[file]}: no file {file}"
    for file in sorted(found - wanted.keys()):
        yield f"{file}: its index doesn't name it"
    yield from twice(names, "worked/index")
    yield from wrong_stored(names)
    yield from wrong_copies(names)


def wrong_copies(names):
    """The files of a worked list's name that have other bytes."""
    for path in [*sorted(PROGRAM.glob("data/**/*")), *sorted(TESTS.glob("data/**/*"))]:
        own = LISTS / path.name
        if path.suffix in ONE_TEXT and path.stem in names and own.exists() and path.read_bytes() != own.read_bytes():
            yield f"{path.stem}: {path.relative_to(TOP)} is another text than {own.relative_to(TOP)}"


def run_entries():
    """Each worked run: its name, its files, what it shows."""
    for line in lines_of(RUNS):
        fields, _, shown = line.partition(": ")
        name, _, *files = fields.split(" ")[:5]
        yield name, files, shown


def wrong_runs():
    entries = list(run_entries())
    names = [name for name, _, _ in entries]
    for name, files, shown in entries:
        if len(files) != 3 or not shown:
            yield f"{name}: a line of another form"
        for file in files:
            if file not in ("-", "full") and not (RUNS.parent / "lists" / file).exists():
                yield f"{name}: no file {file}"
    yield from twice(names, "data/runs/worked")


def call_entries():
    """Each worked call: its file, its table, its vector, what it shows."""
    for line in lines_of(CALLS):
        if line and not line.startswith("#"):
            yield tuple(line.split(" | "))


def listed(path):
    """The test vectors of each table of a file; those of no table have the name ""."""
    tables, table = defaultdict(list), ""
    for line in lines_of(path) if path.exists() else []:
        table = line[2:] if line.startswith("# ") else table
        tables[table].append(line.partition("|")[0])
    return tables


def is_tested(file, table, vector):
    """Whether a file has this test vector in the table, and a test of `cargo test` names the table, or has its name."""
    tables = listed(TOP / file)
    vectors = tables.get(table, tables[""])
    text = "\n".join(path.read_text() for path in TESTS.rglob("*.rs"))
    return bool(vectors) and (vector == "*" or vector in vectors) and (f'"{table}"' in text or f"fn {table}(" in text)


def wrong_calls():
    entries = list(call_entries())
    for entry in entries:
        if len(entry) != 4:
            yield f"{' | '.join(entry)}: a line of another form"
            continue
        file, table, vector, _ = entry
        if not is_tested(file, table, vector):
            yield f"{vector}: no test of {table} has it in {file}"
    yield from twice([" | ".join(entry[:3]) for entry in entries], CALLS.name)


def main():
    if sys.argv[1:] not in ([], ["--all"]):
        sys.exit(__doc__)
    if sys.argv[1:]:
        for name, _, shown in [*list_entries(), *run_entries()]:
            print(f"{name}: {shown}")
        for file, table, vector, shown in call_entries():
            print(f"{file}, {table}, {vector}: {shown}")
        return
    wrong = [*wrong_lists(), *wrong_runs(), *wrong_calls()]
    if wrong:
        sys.exit("\n".join(wrong))
    lists, runs, calls = len(list(list_entries())), len(list(run_entries())), len(list(call_entries()))
    print(f"worked examples: {lists} lists, {runs} runs, {calls} calls")


if __name__ == "__main__":
    no_words(__file__)
    main()
