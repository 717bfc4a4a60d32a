#!/usr/bin/env python3
"""Compares two programs over token lists drawn at random (lists.py), for events and for nodes.

    python3 compare.py PROGRAM LIBYAML COUNT SEED JOBS

PROGRAM and LIBYAML are command lines, to which the mode is added; JOBS lists are compared side by side. One line of counts
is printed and, if lists differ, the one with the fewest lines, made smaller by leaving lines out. The exit status is 0
if no list differs, 1 if one does or nothing was compared, and 2 for wrong words.

Run by run.sh.
"""
import multiprocessing
import shlex
import subprocess
import sys
import tempfile
import time
from collections import Counter
from typing import NamedTuple, Optional

import lists

MODES = ("events", "nodes")
ENDED, FAULTED = 0, 1
LONGEST_RUN = 60  # seconds


class Run(NamedTuple):
    """What a program did over a list; the status is negative after a signal, and None where it had not ended in time."""

    status: Optional[int]
    output: bytes
    errors: bytes


class Difference(NamedTuple):
    number: int
    mode: str
    problem: str
    lines: list


def run(command, mode, lines):
    with tempfile.TemporaryFile() as file:
        file.write(b"".join(lines))
        file.seek(0)
        try:
            done = subprocess.run([*command, mode], stdin=file, capture_output=True, timeout=LONGEST_RUN)
        except subprocess.TimeoutExpired:
            return Run(None, b"", b"")
    return Run(done.returncode, done.stdout, done.stderr)


def first_difference(outputs):
    """The first line that differs, of both outputs."""
    ours, theirs = (output.split(b"\n") for output in outputs)
    same = (one == other for one, other in zip(ours, theirs))
    at = next((place for place, is_same in enumerate(same) if not is_same), min(len(ours), len(theirs)))
    shown = [b"\n".join(lines[at:at + 1] or [b"(nothing more)"]).decode(errors="replace") for lines in (ours, theirs)]
    return f"line {at + 1} differs\n  PROGRAM {shown[0]}\n  LIBYAML {shown[1]}"


def problem_of(here, there, mode):
    """What is wrong with two runs over a list, or None. Two that fail alike are wrong too."""
    for name, done in (("PROGRAM", here), ("LIBYAML", there)):
        if done.status not in (ENDED, FAULTED):
            return f"{name} has status {done.status}"
        if done.errors:
            return f"{name} wrote on standard error: {done.errors!r}"
        if mode == "events" and not done.output:
            return f"{name} wrote nothing"
    if here.output != there.output:
        return first_difference((here.output, there.output))
    return None if here.status == there.status else f"the status is {here.status} of PROGRAM, {there.status} of LIBYAML"


def compare(commands, mode, lines):
    """Runs both programs; returns what the first did, and what is wrong or None."""
    here, there = (run(command, mode, lines) for command in commands)
    return here, problem_of(here, there, mode)


def compare_drawn(job):
    """Draws a list and compares it in both modes; returns counts and the differences."""
    commands, seed, number = job
    kind, has_zeros, lines = lists.draw(seed, number)
    counts, differences = Counter({"lists": 1, kind: 1, "zeros": has_zeros, "lines": len(lines)}), []
    for mode in MODES:
        here, problem = compare(commands, mode, lines)
        counts[mode, here.status] += 1
        counts["written"] += here.output.count(b"\n")
        if problem is None and kind == lists.SENTENCE and mode == "events" and here.status != ENDED:
            problem = "both have a fault in a sentence"
        if problem is not None:
            differences.append(Difference(number, mode, problem, lines))
    return counts, differences


def leave_out(lines, size, differ):
    """Leaves out each part of so many lines without which the programs differ still."""
    at = 0
    while at < len(lines):
        fewer = lines[:at] + lines[at + size:]
        if differ(fewer):
            lines = fewer
        else:
            at += size
    return lines


def smallest(lines, differ):
    """Leaves lines out, many at once and then one by one, until no line can be left out."""
    size = max(1, len(lines) // 2)
    while True:
        fewer = leave_out(lines, size, differ)
        if size == 1 and fewer == lines:
            return lines
        lines, size = fewer, max(1, size // 2)


def show(commands, seed, difference):
    """Prints a difference, over the smallest list that its lines become."""
    number, mode, problem, lines = difference
    fewer = smallest(lines, lambda some: compare(commands, mode, some)[1] is not None)
    problem = compare(commands, mode, fewer)[1] or problem
    print(f"list {number} of seed {seed}, {mode}, {len(fewer)} of its {len(lines)} lines: {problem}")
    print(b"".join(fewer).decode(errors="backslashreplace"))


def counts_in_words(seed, counts, differing, seconds):
    kinds = ", ".join(f"{counts[kind]} {kind}" for kind in lists.KINDS)
    modes = "; ".join(f"{mode}: {counts[mode, ENDED]} ended, {counts[mode, FAULTED]} faulted" for mode in MODES)
    return (
        f"{differing} of {counts['lists']} lists of seed {seed} differ: {kinds}; {counts['zeros']} with zero bytes; "
        f"{counts['lines']} lines; {modes}; {counts['written']} lines written; {seconds:.0f} s"
    )


def main():
    try:
        *words, count, seed, jobs = sys.argv[1:]
        commands, count, seed, jobs = [shlex.split(word) for word in words], int(count), int(seed), int(jobs)
        is_asked = len(commands) == 2 and count > 0 and jobs > 0
    except ValueError:
        is_asked = False
    if not is_asked:
        print(__doc__, file=sys.stderr)
        sys.exit(2)
    started, counts, differences = time.time(), Counter(), []
    with multiprocessing.Pool(jobs) as pool:
        drawn = ((commands, seed, number) for number in range(count))
        for some_counts, some_differences in pool.imap_unordered(compare_drawn, drawn, chunksize=16):
            counts += some_counts
            differences += some_differences
    differing = len({difference.number for difference in differences})
    print(counts_in_words(seed, counts, differing, time.time() - started), flush=True)
    if differences:
        show(commands, seed, min(differences, key=lambda difference: (len(difference.lines), difference.number)))
    is_compared = counts["lists"] == count and counts["lines"] > 0 and counts["written"] > 0
    if not is_compared:
        print("nothing was compared")
    sys.exit(0 if is_compared and not differences else 1)


if __name__ == "__main__":
    main()
