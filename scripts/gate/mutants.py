#!/usr/bin/env python3
"""Fails if docs/mutants.txt doesn't say where a mutant is seen and what refuses it, or names one that isn't there; if a
mutant shows nothing that no other shows; or if an equivalent mutant of `controls/`, or a leak of leaks_seen.py, changes
text that the code no longer has: these are tried by hand, and would go stale unseen.

    python3 scripts/gate/mutants.py

Run by check.sh.
"""
import sys
from pathlib import Path

sys.path[:0] = [str(Path(__file__).resolve().parents[1] / part) for part in ("", "parts")]
from controls import TOP, mutated  # noqa: E402
from leaks_seen import LEAKS, planted  # noqa: E402
from mutant_lines import wrong_lines  # noqa: E402
from usage import no_words  # noqa: E402


def stale(make, *words):
    """What is said of it, if it can't be made."""
    try:
        make(*words)
    except SystemExit as said:
        yield said.code


def main():
    crates = TOP / "crates"
    found = [*wrong_lines(), *(said for leak in LEAKS for said in stale(planted, leak, crates))]
    for mutant in sorted(crates.glob("*/controls/*.edit")):
        found += stale(mutated, mutant.parents[1], mutant)
    sys.exit("\n".join(found) or 0)


if __name__ == "__main__":
    no_words(__file__)
    main()
