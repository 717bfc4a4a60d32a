#!/usr/bin/env python3
"""paired.py TURNS NAME COMMAND PEER TEXT COUNTED NONE: a row of a table, how much more than PEER COMMAND takes.

Both are lines of the shell, in which `{}` stands for a file. The time is that of the processor over TEXT, of the program and of the
system for it: the two run in turn, and the row has the median of the ratios of all turns, after one that isn't counted, the
middle half of them, and both medians in milliseconds. Instructions are counted by callgrind over COUNTED, less those over NONE.
Fails if a command does.
"""
import re
import resource
import statistics
import subprocess
import sys
import tempfile


def run(line):
    subprocess.run(line, shell=True, check=True, stdout=subprocess.DEVNULL, stderr=subprocess.PIPE)


def taken(line):
    before = resource.getrusage(resource.RUSAGE_CHILDREN)
    run(line)
    after = resource.getrusage(resource.RUSAGE_CHILDREN)
    return 1e3 * (after.ru_utime + after.ru_stime - before.ru_utime - before.ru_stime)


def instructions(line):
    """The instructions of a command behind its settings, such as LD_PRELOAD."""
    settings, command = re.fullmatch(r"((?:\w+=\S+ )*)(.*)", line).groups()
    with tempfile.NamedTemporaryFile("r") as log:
        run(f"{settings}valgrind --tool=callgrind --callgrind-out-file=/dev/null --log-file={log.name} {command}")
        return int(re.search(r"Collected : (\d+)", log.read())[1])


def main(turns, name, command, peer, text, counted, none):
    ours, theirs = (instructions(each.replace("{}", counted)) - instructions(each.replace("{}", none)) for each in (command, peer))
    lines = [each.replace("{}", text) for each in (command, peer)]
    taken(lines[0]), taken(lines[1])
    pairs = []
    for turn in range(int(turns)):
        pair = [taken(each) for each in (lines if turn % 2 == 0 else reversed(lines))]
        pairs.append(pair if turn % 2 == 0 else pair[::-1])
    low, middle, high = statistics.quantiles([one / other for one, other in pairs], n=4)
    of_ours, of_theirs = (statistics.median(column) for column in zip(*pairs))
    print(f"| {name} | {ours / theirs:.2f} | {middle:.2f} ({low:.2f}–{high:.2f}) | {of_ours:.0f} ms against {of_theirs:.0f} |", flush=True)


main(*sys.argv[1:])
