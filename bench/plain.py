#!/usr/bin/env python3
"""Prints the tables of the crate `pokhvizi`, by rustc, of docs/PERFORMANCE.md: instructions a token, beside libyaml and unsafe-libyaml.

    python3 bench/plain.py [KIND..]

KIND is a kind of list of lists.py; without one all are measured. UNSAFE_LIBYAML=DIR is the folder of the crate unsafe-libyaml 0.2.11, with
its src; without it its columns are missing. JOBS counts go on at a time (2). All programs must agree in their counts and checksums.

Needs cargo, valgrind, a C compiler and Debian's libyaml-dev; not the kit."""
import os
import subprocess
import sys
import tempfile
from pathlib import Path

import measure
from lists import KINDS

HERE = Path(__file__).resolve().parent
measure.MEASURES.update({
    "plain place events": ("plain", "place-events"),
    "plain iterate events": ("plain", "iterate-events"),
    "plain composed events": ("plain", "composed-events"),
    "plain placed events": ("plain_more", "placed-events"),
    "plain place nodes": ("plain", "place-nodes"),
    "plain iterate nodes": ("plain", "iterate-nodes"),
    "plain half nodes": ("plain_more", "half-nodes"),
})
EVENTS = {
    "libyaml": "libyaml events",
    "`unsafe-libyaml`": "unsafe events",
    "by rustc, in place": "plain place events",
    "`unsafe-libyaml`, moved": "moved events",
    "by rustc, by iterator": "plain iterate events",
    "composed": "plain composed events",
    "placed": "plain placed events",
    "floor": "floor events",
}
NODES = {
    "libyaml": "libyaml nodes",
    "`unsafe-libyaml`": "unsafe nodes",
    "by rustc, in place": "plain place nodes",
    "by iterator": "plain iterate nodes",
    "with halves": "plain half nodes",
    "floor": "floor nodes",
}


def build(work):
    """The programs that are measured, and the lists."""
    def run(*words, **environment):
        subprocess.run([str(word) for word in words], cwd=HERE, check=True, env={**os.environ, **environment})

    cc, objects = os.environ.get("CC", "cc"), f"{work}/read_tokens.o"
    flags = ["-std=gnu11", "-O2"]
    run(cc, *flags, "-c", "-o", objects, "read_tokens.c")
    run(cc, *flags, "-o", f"{work}/libyaml", "libyaml.c", objects, "-Wl,-Bstatic", "-lyaml", "-Wl,-Bdynamic")
    run("cargo", "build", "-q", "--release", "--manifest-path", "plain/Cargo.toml", CARGO_TARGET_DIR=f"{work}/cargo", CARGO_NET_OFFLINE="true")
    os.symlink(f"{work}/cargo/release/plain", f"{work}/plain")
    run("cargo", "build", "-q", "--release", "--features", "more", "--manifest-path", "plain/Cargo.toml",
        CARGO_TARGET_DIR=f"{work}/more", CARGO_NET_OFFLINE="true")
    os.symlink(f"{work}/more/release/plain", f"{work}/plain_more")
    for by in ("libyaml", "moved") if "UNSAFE_LIBYAML" in os.environ else ():
        options = ["-O", "-C", "codegen-units=1", "-C", "panic=abort", "-C", f"link-arg={objects}", "-C", "link-arg=-lyaml"]
        run("rustc", "--edition", "2021", *options, "--cfg", by, "-o", f"{work}/unsafe_{by}", "unsafe_libyaml.rs")
    run(sys.executable, "lists.py", work)


def main():
    kinds = sys.argv[1:] or list(KINDS)
    if any(kind not in KINDS for kind in kinds):
        print(f"usage: plain.py KIND.., of {' '.join(KINDS)}", file=sys.stderr)
        return 2
    with tempfile.TemporaryDirectory() as work:
        build(work)
        measures = [*dict.fromkeys([*EVENTS.values(), *NODES.values()])]
        figures = measure.measure_lists(measure.Bench(work), kinds, measures)
    measure.print_table("by rustc: events, instructions a token", EVENTS, figures)
    measure.print_table("by rustc: nodes, instructions a token", NODES, figures)


if __name__ == "__main__":
    try:
        sys.exit(main())
    except (measure.Failed, OSError, subprocess.CalledProcessError) as failure:
        sys.exit(f"plain.py: {failure}")
