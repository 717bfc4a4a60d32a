#!/usr/bin/env python3
"""Writes what the pages take from the sources; each module of parts/pages says which.

    python3 scripts/pages.py           writes it
    python3 scripts/pages.py --check   fails if a page is not as this leaves it, and names the line

It fails too, and writes nothing, if the sources lack what a page needs. Run by hand, and by check.sh.
"""
import sys
from itertools import zip_longest
from pathlib import Path

TOP = Path(__file__).resolve().parents[1]
sys.path[:0] = [str(TOP / "scripts/parts"), str(TOP / "scripts/parts/pages")]

import figures  # noqa: E402
import headline  # noqa: E402
import layers  # noqa: E402
import proofs  # noqa: E402
import surface  # noqa: E402
from usage import wrong_words  # noqa: E402


class Pages(dict):
    """The text of each page, which is that of its file until it is made."""

    def __missing__(self, path):
        return path.read_text() if path.exists() else ""


def first_other(was, now):
    """The first line that differs, by its number."""
    pairs = zip_longest(was.split("\n"), now.split("\n"), fillvalue="nothing")
    number, (one, other) = next(pair for pair in enumerate(pairs, 1) if len(set(pair[1])) > 1)
    return f"{number}: {one}\n    and not: {other}"


def main(words):
    if words not in ([], ["--check"]):
        wrong_words(__doc__)
    pages, was = Pages(), Pages()
    wrong = [said for module in (surface, proofs, headline, layers, figures) for said in module.make(pages)]
    others = {} if wrong else {path: text for path, text in pages.items() if was[path] != text}
    for path, text in others.items():
        if words:
            wrong.append(f"{path.relative_to(TOP)}:{first_other(was[path], text)}")
        else:
            path.write_text(text)
    wrong += ["python3 scripts/pages.py writes the pages"] if words and others else []
    print("\n".join(wrong), end="\n" if wrong else "")
    return 1 if wrong else 0


if __name__ == "__main__":
    sys.exit(main(sys.argv[1:]))
