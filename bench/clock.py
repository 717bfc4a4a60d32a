"""The clock's tables of docs/PERFORMANCE.md, for measure.py: how many times as long as ours a peer takes.

A core's speed changes by up to half for tens of milliseconds at a time, with what its neighbours do. So runs are short
(`RUN_TOKENS`) and many, on one core: in each turn all programs run once, in a random order. A program's time is the 20th percentile
of its times less that of a run of no rounds. A cell is the peer's time divided by ours, with the least and the largest of that
ratio over the four quarters of the turns; a ratio outside of these is left out, but for the means. $TURNS is the number of turns
(24), $CORE the core (the last)."""
import math
import os
import random
import re

RUN_TOKENS = 250000
# Lists that grow stay in the heap, and what is freed at its end isn't given back.
KEEPS_PAGES = {"GLIBC_TUNABLES": "glibc.malloc.trim_threshold=67108864:glibc.malloc.mmap_threshold=67108864"}

PEERS = ("libyaml", "unsafe_libyaml")
IN_PLACE = {"libyaml": ("libyaml", "events"), "unsafe_libyaml": ("unsafe_libyaml", "events")}
NODES = {"libyaml": ("libyaml", "nodes"), "unsafe_libyaml": ("unsafe_libyaml", "nodes")}

# The columns: their heads, the work of ours, each peer's program and its work, and the settings of glibc.
COLUMNS = (
    ("events in place", "place-events", IN_PLACE, {}),
    ("events by iterator, the peer's in place", "iterate-events", IN_PLACE, {}),
    ("events by iterator, the peer's moved", "iterate-events", {"unsafe_libyaml": ("unsafe_moved", "moved-events")}, {}),
    ("the peer's copied", "iterate-events", {"unsafe_libyaml": ("unsafe_copied", "copied-events")}, {}),
    ("the peer's as serde_yaml", "iterate-events", {"unsafe_libyaml": ("unsafe_serde", "serde-events")}, {}),
    ("events, texts kept", "reuse-events", IN_PLACE, {}),
    ("nodes in place", "place-nodes", NODES, {}),
    ("nodes in place, where glibc gives no page back", "place-nodes", NODES, KEEPS_PAGES),
)


def machine():
    """The processor's name and the number of its cores."""
    with open("/proc/cpuinfo", encoding="utf-8") as lines:
        names = re.findall(r"^model name\s*: (.*)$", lines.read(), flags=re.M)
    return f"{names[0] if names else 'an unnamed processor'}, {os.cpu_count()} cores"


def seconds(words, path, settings):
    """The processor's time of a run, and the system's for it."""
    actions = [(os.POSIX_SPAWN_OPEN, 0, path, os.O_RDONLY, 0), (os.POSIX_SPAWN_OPEN, 1, os.devnull, os.O_WRONLY, 0)]
    child = os.posix_spawn(words[0], words, {**os.environ, **settings}, file_actions=actions)
    _, status, used = os.wait4(child, 0)
    if status != 0:
        raise OSError(f"{' '.join(words)} < {path}: status {status}")
    return used.ru_utime + used.ru_stime


def lower_fifth(times):
    return sorted(times)[len(times) // 5]


def times_of(works, path, rounds, turns, settings):
    """The times of each work's rounds in every turn, less its start's; the first turn isn't counted."""
    times, starts = {work: [] for work in works}, {work: [] for work in works}
    for turn in range(turns + 1):
        for work in random.sample(works, len(works)):
            took = seconds([*work, str(rounds)], path, settings)
            if turn > 0:
                times[work].append(took)
            if turn % 3 == 0:
                starts[work].append(seconds([*work, "0"], path, settings))
    return {work: [took - lower_fifth(starts[work]) for took in times[work]] for work in works}


def ratio(peer, ours):
    """How many times as long the peer takes, with the least and largest in the fourths of the turns."""
    fourth = len(ours) // 4
    parts = [
        lower_fifth(peer[at : at + fourth]) / lower_fifth(ours[at : at + fourth]) for at in range(0, 4 * fourth, fourth)
    ]
    return lower_fifth(peer) / lower_fifth(ours), min(parts), max(parts)


def shown_ratio(middle, low, high):
    """A cell: a dash for a ratio outside of its range."""
    return f"{middle:.2f} ({low:.2f}–{high:.2f})" if low <= middle <= high else f"– ({low:.2f}–{high:.2f})"


def measured(bench, kind, ours, theirs, settings):
    """Nanoseconds a token of ours over a kind of list, and each peer's ratio."""
    count, turns = bench.token_count(kind), int(os.environ.get("TURNS", "24"))
    rounds = math.ceil(RUN_TOKENS / count)
    first = (bench.program("bench_lists"), ours)
    peers = {peer: (bench.program(name), work) for peer, (name, work) in theirs.items() if bench.has(name)}
    times = times_of([first, *peers.values()], bench.tokens(kind), rounds, turns, settings)
    ratios = {peer: ratio(times[work], times[first]) for peer, work in peers.items()}
    return lower_fifth(times[first]) * 1e9 / rounds / count, ratios


def print_table(title, heads, rows):
    """A table: a line a kind, a column a work."""
    print(f"\n| {title} | " + " | ".join(heads) + " |")
    print("|---|" + "---|" * len(heads))
    for kind, cells in rows.items():
        print(f"| {kind} | " + " | ".join(cells) + " |")


def print_lists(bench, kinds):
    """Ours in nanoseconds, and each peer's ratios, with their geometric means."""
    found = {kind: [measured(bench, kind, *column[1:]) for column in COLUMNS] for kind in kinds}
    heads = [head for head, *_ in COLUMNS]
    print_table("nanoseconds a token", heads, {kind: [f"{ns:.1f}" for ns, _ in cells] for kind, cells in found.items()})
    for peer in PEERS:
        if bench.has(peer):
            places = [place for place, (_, _, theirs, _) in enumerate(COLUMNS) if peer in theirs]
            ratios = {kind: [cells[place][1][peer] for place in places] for kind, cells in found.items()}
            shown = {kind: [shown_ratio(*cell) for cell in cells] for kind, cells in ratios.items()}
            columns = [[middle for middle, _, _ in column] for column in zip(*ratios.values())]
            shown["geometric mean"] = [f"{math.exp(sum(map(math.log, column)) / len(column)):.2f}" for column in columns]
            print_table(f"how many times as long {peer.replace('_', '-')} takes", [heads[place] for place in places], shown)


def print_program(bench, turns):
    """The time of the program beside libyaml's."""
    for what in ("events", "nodes"):
        words = ((bench.program("yamltokens"), what), (bench.program("libyaml_lines"), what))
        times = {each: [] for each in words}
        for _ in range(turns):
            for each in random.sample(words, 2):
                times[each].append(seconds(list(each), bench.tokens("program"), {}))
        middle, low, high = ratio(times[words[1]], times[words[0]])
        took = lower_fifth(times[words[0]])
        print(f"`yamltokens {what}`: {took:.3f} s; libyaml takes {middle:.2f} ({low:.2f}–{high:.2f}) times as long")


def print_clock(bench, kinds, with_program):
    """All tables, for these kinds."""
    core = int(os.environ.get("CORE", max(os.sched_getaffinity(0))))
    os.sched_setaffinity(0, {core})
    print(f"\nMachine: {machine()}; load {os.getloadavg()[0]:.1f} as the clock is started.")
    if kinds:
        print_lists(bench, kinds)
    if with_program:
        print_program(bench, int(os.environ.get("TURNS", "24")))
