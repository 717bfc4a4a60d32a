#!/usr/bin/env python3
"""Feeds a program a line of YAML at a time: the events that a line determines have to be there before the next line is sent.

    slow_pipe.py PROGRAM WORD..

The program prints the number of each event's kind (yaml_event_type_t) in a line of its own. The exit status is 1 if an
event comes late (after ten seconds, or those that SECONDS names) or is another.

Run by clients.sh.
"""
import os
import sys
from pathlib import Path

sys.path[0] = str(Path(__file__).resolve().parents[2] / "parts")
from slow_pipe import wrong  # noqa: E402

SECONDS = float(os.environ.get("SECONDS", "10"))
# Each line, and the further events that are there once it was read.
LINES = [
    ("- a", [1, 3, 7]),
    ("- [b, c]", [6]),
    ("- d: e", [7, 6, 6, 8, 9, 6]),
    ("  f: g", [6, 6]),
    ("---", [6, 10, 8, 4, 3]),
    ("- &h i", [7]),
    ("- *h", [6]),
    ("...", [5, 8, 4]),
    ("--- !!j k", [3]),
    ("# end", [6]),
    (None, [4, 2]),
]


def main():
    if len(sys.argv) < 2:
        sys.exit(__doc__)
    lines = [(line, "".join(f"{kind}\n" for kind in kinds).encode()) for line, kinds in LINES]
    print(f"{sum(len(kinds) for line, kinds in LINES if line is not None)} events before the end of the pipe")
    said = wrong(sys.argv[1:], lines, SECONDS, may_be_early=True)
    if said:
        print(said)
        sys.exit(1)


if __name__ == "__main__":
    main()
