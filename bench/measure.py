#!/usr/bin/env python3
"""measure.py DIR [--clock] [--out FIGURES] KIND..: what a token takes in each list of DIR, and a line of the program.

DIR has the lists of lists.py and the programs `bench_lists`, `yamltokens`, `libyaml`, `libyaml_lines` and, maybe, those of
`unsafe_libyaml.rs`. KIND is a kind of list, `growth`, `lengths` or `program`. Instructions are counted by valgrind's callgrind: of
a list, the difference of two runs that differ in their rounds alone. All programs must agree in their counts and checksums.
`--clock` takes the time too (clock.py); FIGURES is written for chart.py. $JOBS runs go on at a time (2).

Nodes are counted twice. As glibc is set, what a block costs hangs on where the blocks before it lie: it keeps seven freed
blocks of a size, joins the others when a list of nodes grows, and cuts new ones from what it joined. With KEEPS_BLOCKS
it keeps every freed block, and the figures differ by what the parsers and loaders do alone."""
import json
import math
import os
import re
import subprocess
import sys
from concurrent.futures import ThreadPoolExecutor

from clock import print_clock
from lists import GROWING, KINDS, LENGTHS, REPEATED

# glibc's malloc keeps every freed block for a request of its size, up to a size of 1,032 bytes.
KEEPS_BLOCKS = {"GLIBC_TUNABLES": "glibc.malloc.tcache_count=65535"}

# Each measure of a list: its program, and the word of its work there; `kept` where malloc keeps every freed block.
MEASURES = {
    "libyaml events": ("libyaml", "events"),
    "unsafe events": ("unsafe_libyaml", "events"),
    "place events": ("bench_lists", "place-events"),
    "reuse events": ("bench_lists", "reuse-events"),
    "list events": ("bench_lists", "list-events"),
    "push events": ("bench_lists", "push-events"),
    "value events": ("bench_lists", "value-events"),
    "iterate events": ("bench_lists", "iterate-events"),
    "moved events": ("unsafe_moved", "moved-events"),
    "copied events": ("unsafe_copied", "copied-events"),
    "serde events": ("unsafe_serde", "serde-events"),
    "list alone": ("bench_lists", "list-tokens"),
    "floor events": ("libyaml", "floor-events"),
    "libyaml nodes": ("libyaml", "nodes"),
    "unsafe nodes": ("unsafe_libyaml", "nodes"),
    "place nodes": ("bench_lists", "place-nodes"),
    "reuse nodes": ("bench_lists", "reuse-nodes"),
    "iterate nodes": ("bench_lists", "iterate-nodes"),
    "list nodes": ("bench_lists", "list-nodes"),
    "floor nodes": ("libyaml", "floor-nodes"),
    "kept libyaml nodes": ("libyaml", "nodes"),
    "kept unsafe nodes": ("unsafe_libyaml", "nodes"),
    "kept place nodes": ("bench_lists", "place-nodes"),
}
# The columns of a table: their heads, and the measures below them.
EVENTS = {
    "libyaml": "libyaml events",
    "`unsafe-libyaml`": "unsafe events",
    "ours, in place": "place events",
    "texts kept": "reuse events",
    "over a list": "list events",
    "pushed": "push events",
    "the list alone": "list alone",
    "floor": "floor events",
}
BY_VALUE = {
    "`unsafe-libyaml`, moved": "moved events",
    "copied": "copied events",
    "as serde_yaml": "serde events",
    "ours, by iterator": "iterate events",
    "by value": "value events",
}
NODES = {
    "libyaml": "libyaml nodes",
    "`unsafe-libyaml`": "unsafe nodes",
    "ours, in place": "place nodes",
    "texts kept": "reuse nodes",
    "by iterator": "iterate nodes",
    "over a list": "list nodes",
    "floor": "floor nodes",
}
KEPT_NODES = {
    "libyaml": "kept libyaml nodes",
    "`unsafe-libyaml`": "kept unsafe nodes",
    "ours, in place": "kept place nodes",
}
# The tables of lists of more than one length: what is counted, the peer and ours.
BESIDE = {
    "events in place": ("unsafe events", "place events"),
    "events by iterator": ("moved events", "iterate events"),
    "nodes in place": ("unsafe nodes", "place nodes"),
}
MEASURED_TOKENS = 40000


class Failed(Exception):
    """A program or a tool failed, or two programs disagree."""


def run(words, path, settings=None):
    """What a command writes of a file on its standard input, and the other things that it says."""
    env = {**os.environ, **(settings or {})}
    with open(path, "rb") as lines:
        done = subprocess.run(words, stdin=lines, stdout=subprocess.PIPE, stderr=subprocess.PIPE, check=False, env=env)
    if done.returncode != 0:
        said = done.stderr.decode(errors="replace").strip()
        raise Failed(f"{' '.join(words)} < {path}: status {done.returncode}: {said}")
    return done.stdout, done.stderr.decode(errors="replace")


def instructions(words, path, settings=None):
    """How many instructions a command takes, and what it writes."""
    written, said = run(["valgrind", "--tool=callgrind", "--callgrind-out-file=/dev/null"] + words, path, settings)
    count = re.search(r"Collected : (\d+)", said)
    if count is None:
        raise Failed(f"{' '.join(words)}: valgrind counted nothing")
    return int(count.group(1)), written


class Bench:
    """The programs and the lists of a folder."""

    def __init__(self, directory):
        self.directory = directory

    def program(self, name):
        return os.path.join(self.directory, name)

    def has(self, name):
        return os.path.exists(self.program(name))

    def tokens(self, kind):
        return os.path.join(self.directory, kind + ".tokens")

    def token_count(self, kind):
        with open(self.tokens(kind), encoding="ascii") as lines:
            return sum(1 for _ in lines)

    def measure(self, kind, measure):
        """Instructions a token, and the count and checksum of a round; None for a program that may be missing."""
        name, work = MEASURES[measure]
        if name.startswith("unsafe") and not self.has(name):
            return None
        count, path = self.token_count(kind), self.tokens(kind)
        few = max(2, math.ceil(MEASURED_TOKENS / 4 / count))
        more = few + max(2, math.ceil(MEASURED_TOKENS / count))
        settings = KEEPS_BLOCKS if measure.startswith("kept") else None
        first, _ = instructions([self.program(name), work, str(few)], path, settings)
        last, written = instructions([self.program(name), work, str(more)], path, settings)
        word, items, checksum, counted = written.split()
        if word.decode() != work or int(counted) != more * int(items):
            raise Failed(f"{name} {work} of {kind} wrote {written!r}")
        return (last - first) / (more - few) / count, (int(items), int(checksum))

    def check(self, kind, measured):
        """Raises where two programs disagree about the events or the nodes of a list."""
        for what in ("events", "nodes"):
            seen = {m: r[1] for m, r in measured.items() if r is not None and m.endswith(what)}
            if len(set(seen.values())) > 1:
                raise Failed(f"{kind}: the programs disagree about its {what}: {seen}")

    def lines(self, what):
        """Instructions of the program and of libyaml over the program's lines; their output is the same."""
        path = self.tokens("program")
        ours, written = instructions([self.program("yamltokens"), what], path)
        theirs, other = instructions([self.program("libyaml_lines"), what], path)
        if written != other:
            raise Failed(f"yamltokens and libyaml_lines write different {what}")
        return ours, theirs


def shown(measured, measure):
    result = measured[measure]
    return "missing" if result is None else f"{result[0]:,.1f}"


def print_table(what, columns, figures):
    print(f"\n| {what} | " + " | ".join(columns) + " |")
    print("|---|" + "---|" * len(columns))
    for kind, measured in figures.items():
        print(f"| {kind} | " + " | ".join(shown(measured, m) for m in columns.values()) + " |")


def measure_lists(bench, kinds, measures=tuple(MEASURES)):
    """The measures of each kind."""
    jobs = [(kind, measure) for kind in kinds for measure in measures]
    with ThreadPoolExecutor(int(os.environ.get("JOBS", "2"))) as pool:
        results = list(pool.map(lambda job: bench.measure(*job), jobs))
    figures = {kind: {} for kind in kinds}
    for (kind, measure), result in zip(jobs, results):
        figures[kind][measure] = result
    for kind in kinds:
        bench.check(kind, figures[kind])
    return figures


def print_growth(bench):
    """Instructions a token of lists that have ten times as many tokens."""
    print("\n| list | tokens | events, instructions a token | nodes, instructions a token |\n|---|---|---|---|")
    for kind in GROWING:
        few, many = kind + "-few", kind + "-many"
        cells = [f"{bench.token_count(few):,}, {bench.token_count(many):,}"]
        for measure in ("place events", "place nodes"):
            first, last = (bench.measure(list_, measure)[0] for list_ in (few, many))
            cells.append(f"{first:,.1f}, {last:,.1f}")
        print(f"| {kind} | " + " | ".join(cells) + " |")


def print_lengths(bench):
    """Instructions a token of lists of other lengths, of the peer and of ours."""
    lists_ = {kind: [f"{kind}-{length}" for length in LENGTHS] for kind in REPEATED}
    measures = [measure for pair in BESIDE.values() for measure in pair]
    figures = measure_lists(bench, [name for names in lists_.values() for name in names], measures)
    heads = [f"{who}{length:,}" for who in ("`unsafe-libyaml`, ", "ours, ") for length in LENGTHS]
    for what, pair in BESIDE.items():
        print(f"\n| {what}, by the list's length | " + " | ".join(heads) + " |\n|---|" + "---|" * len(heads))
        for kind, names in lists_.items():
            print(f"| {kind} | " + " | ".join(shown(figures[name], measure) for measure in pair for name in names) + " |")


def print_program(bench):
    count = bench.token_count("program")
    print(f"\n| over {count:,} lines | instructions | a line | libyaml's are |\n|---|---|---|---|")
    for what in ("events", "nodes"):
        ours, theirs = bench.lines(what)
        print(f"| `yamltokens {what}` | {ours / 1e6:.1f} million | {ours / count:,.0f} | {theirs / ours:.2f} times as many |")
        print(f"| libyaml | {theirs / 1e6:.1f} million | {theirs / count:,.0f} | |")


def main():
    words = sys.argv[1:]
    clock = "--clock" in words
    out = words[words.index("--out") + 1] if "--out" in words else None
    words = [word for word in words if word not in ("--clock", "--out", out)]
    growth, lengths, program = "growth" in words, "lengths" in words, "program" in words
    kinds = [kind for kind in KINDS if kind in words[1:]]
    if len(words) != 1 + len(kinds) + growth + lengths + program or len(words) == 1:
        print(f"usage: measure.py DIR [--clock] [--out FIGURES] KIND..: of {' '.join(KINDS)} growth lengths program", file=sys.stderr)
        return 2
    bench = Bench(words[0])
    if kinds:
        if not bench.has("unsafe_libyaml"):
            print("The columns of `unsafe-libyaml` are missing: UNSAFE_LIBYAML names no sources, or rustc is missing.")
        figures = measure_lists(bench, kinds)
        print_table("events, instructions a token", EVENTS, figures)
        print_table("events by value, instructions a token", BY_VALUE, figures)
        print_table("nodes, instructions a token", NODES, figures)
        print_table("nodes, where malloc keeps every freed block", KEPT_NODES, figures)
        if out is not None:
            with open(out, "w", encoding="ascii") as written:
                json.dump({k: {m: r and r[0] for m, r in v.items()} for k, v in figures.items()}, written)
    if growth:
        print_growth(bench)
    if lengths:
        print_lengths(bench)
    if program:
        print_program(bench)
    if clock:
        print_clock(bench, kinds, program)


if __name__ == "__main__":
    try:
        sys.exit(main())
    except (Failed, OSError) as failure:
        sys.exit(f"measure.py: {failure}")
