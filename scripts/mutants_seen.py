#!/usr/bin/env python3
"""Tells which test sees each mutant of crates/*/must-fail; fails if none does and docs/mutants.txt doesn't say so.

    python3 scripts/mutants_seen.py [--write] [CRATE | CRATE/MUTANT]..        (no such word: every mutant)

Each mutant is made in a copy, where `cargo test` runs each program of tests: rustc builds the crates without their contracts. Told is
the first test that fails, of the program that the mutant's line `seen:` names if that fails, and if it says so the test vector. For the
Rust crate's definitions the test vectors are proved instead, which needs `rt`. With --write the place goes into that line; if there is
none, what it says after `nowhere` stays. Two mutants at a time (JOBS), some 20 seconds each.

Run by hand, after mutants or tests changed.
"""
import os
import queue
import re
import shutil
import subprocess
import sys
import tempfile
from concurrent.futures import ThreadPoolExecutor, as_completed
from pathlib import Path

from answers import TOP, wrong_words
from controls import mutated
from mutant_lines import line_of, mutants, name_of, write_line

SECONDS = 300
LAWS = "rust_original"
JOBS = int(os.environ.get("JOBS", "2"))


class NotRun(Exception):
    """The tests were not built over a mutant, or gave no result."""


def programs(named):
    """The programs of tests, first those that a mutant's line `seen:` names."""
    names = re.findall(r'^\[\[test\]\]\nname = "(\w+)"', (TOP / "Cargo.toml").read_text(), flags=re.M)
    return sorted(names, key=lambda name: f"`{name}`" not in named)


def first_failure(said):
    """The first test that fails, and the test vector that it tells, in words."""
    failure = re.search(r"^---- (\S+) stdout ----\n(.*?)(?=^---- |^failures:$)", said, flags=re.M | re.S)
    if not failure:
        return "which is aborted"
    test, told = failure.groups()
    message = re.search(r"panicked at .*\n(?:assertion .* failed: )?(.*)", told)
    vector = re.search(r"^in (.*)", told, flags=re.M) or re.match(r"(?!assertion |called |only )([^:]{1,80}?)(?:, line \d+)?(?:: |$)", message[1] if message else "")
    return f"`{test}`" + (f": `{vector[1]}`" if vector else "")


def run_test(room, program):
    """The first test of a program that fails, in words; None if each passes."""
    environment = {**os.environ, "CARGO_PROFILE_TEST_OPT_LEVEL": "0", "CARGO_PROFILE_TEST_DEBUG": "0", "RUST_BACKTRACE": "0"}
    command = ["timeout", str(SECONDS), "cargo", "test", "--offline", "--test", program]
    run = subprocess.run(command, cwd=room, env=environment, stdin=subprocess.DEVNULL, capture_output=True, text=True, errors="replace")
    if "could not compile" in run.stderr:
        return "rustc, which refuses it"
    if "Running " not in run.stderr:
        raise NotRun(run.stderr[-1500:])
    if run.returncode == 0:
        return None
    return f"`{program}`, " + ("which doesn't end" if run.returncode == 124 else first_failure(run.stdout))


def run_tests(room, named):
    """The first test that fails, in words; None if each passes."""
    return next(filter(None, (run_test(room, program) for program in programs(named))), None)


def run_laws(room):
    """Whether the test vectors of the Rust crate's definitions are proved no more."""
    run = subprocess.run(["rt", "check", "--only", "vectors"], cwd=room / "crates" / LAWS, stdin=subprocess.DEVNULL, capture_output=True, text=True)
    said = run.stdout + run.stderr
    if not re.search(r"^only=[1-9]", said, flags=re.M):
        raise NotRun(said[-1500:])
    return None if run.returncode == 0 else "its test vectors"


def copied(room):
    """A copy of the repository."""
    return shutil.copytree(TOP, room, symlinks=True, ignore=shutil.ignore_patterns(".git", "target", "build", "out"))


def place(rooms, path):
    """Where a mutant is seen, in words; None where it is not; why that is not known."""
    crate = path.parent.parent.name
    room = rooms.get()
    texts = mutated(room / "crates" / crate, path)
    was = {file: file.read_text() for file in texts}
    try:
        for file, text in texts.items():
            file.write_text(text)
        return run_laws(room) if crate == LAWS else run_tests(room, line_of(path, "seen") or "")
    except NotRun as why:
        return why
    finally:
        for file, text in was.items():
            file.write_text(text)
        rooms.put(room)


def tell(path, seen, writes):
    """Prints where a mutant is seen, and writes it; returns whether it is not as it should be."""
    known = not isinstance(seen, NotRun)
    told = (line_of(path, "seen") or "").startswith("nowhere")
    print(f"{name_of(path)}: " + (f"not known: {seen}" if not known else f"seen by {seen}" if seen else "seen nowhere"), flush=True)
    if writes and known and (seen or not told):
        write_line(path, "seen", seen or "nowhere")
    return not known or not seen and not told


def main(words):
    writes = "--write" in words
    words = [word for word in words if word != "--write"]
    chosen = [path for path in mutants() if not words or path.parent.parent.name in words or name_of(path) in words]
    if not chosen:
        wrong_words(__doc__)
    with tempfile.TemporaryDirectory() as folder, ThreadPoolExecutor(JOBS) as pool:
        rooms = queue.Queue()
        for number in range(JOBS):
            rooms.put(copied(Path(folder) / str(number)))
        tries = {pool.submit(place, rooms, path): path for path in chosen}
        wrong = sum(tell(tries[done], done.result(), writes) for done in as_completed(tries))
    if wrong:
        sys.exit(f"{wrong} seen nowhere, or not known")


if __name__ == "__main__":
    main(sys.argv[1:])
