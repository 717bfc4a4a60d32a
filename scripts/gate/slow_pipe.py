#!/usr/bin/env python3
"""Feeds `yamltokens` a line at a time: what a token determines has to be in the output before the next token is sent.

    python3 scripts/gate/slow_pipe.py PROGRAM

The exit status is 1 if a line of events or nodes comes late (after ten seconds), is another, or comes too soon, and if
the program does not end with status 0.

Run by check_programs.sh.
"""
import sys
from pathlib import Path

sys.path.insert(0, str(Path(__file__).resolve().parents[1] / "parts"))
from slow_pipe import wrong  # noqa: E402
from usage import wrong_words  # noqa: E402

# Each token line of `---`, `- a`, `- b` and `...`, the event lines that it settles, and the node lines.
TOKENS = [
    ("STREAM-START 0:0:0 0:0:0 utf8", ["STREAM-START 0:0:0 0:0:0 utf8"], []),
    ("DOCUMENT-START 0:0:0 3:0:3", ["DOCUMENT-START 0:0:0 3:0:3 0 - 0"], []),
    ("BLOCK-SEQUENCE-START 4:1:0 4:1:0", ["SEQUENCE-START 4:1:0 4:1:0 - - 1 block"], []),
    ("BLOCK-ENTRY 4:1:0 5:1:1", [], []),
    ("SCALAR 6:1:2 7:1:3 =a plain", ["SCALAR 6:1:2 7:1:3 - - =a 1 0 plain"], []),
    ("BLOCK-ENTRY 8:2:0 9:2:1", [], []),
    ("SCALAR 10:2:2 11:2:3 =b plain", ["SCALAR 10:2:2 11:2:3 - - =b 1 0 plain"], []),
    ("BLOCK-END 12:3:0 12:3:0", ["SEQUENCE-END 12:3:0 12:3:0"], []),
    (
        "DOCUMENT-END 12:3:0 15:3:3",
        ["DOCUMENT-END 12:3:0 15:3:3 0"],
        [
            "DOCUMENT 0:0:0 15:3:3 0 0 - 0",
            "1 SEQUENCE 4:1:0 12:3:0 =tag:yaml.org,2002:seq block 2 2 3",
            "2 SCALAR 6:1:2 7:1:3 =tag:yaml.org,2002:str =a plain",
            "3 SCALAR 10:2:2 11:2:3 =tag:yaml.org,2002:str =b plain",
        ],
    ),
    ("STREAM-END 16:4:0 16:4:0", ["STREAM-END 16:4:0 16:4:0"], []),
]


def written(lines):
    return "".join(line + "\n" for line in lines).encode()


def main():
    if len(sys.argv) != 2 or sys.argv[1].startswith("-"):
        wrong_words(__doc__)
    failed = False
    for mode in ("events", "nodes"):
        lines = [(token, written(events if mode == "events" else nodes)) for token, events, nodes in TOKENS]
        said = wrong([sys.argv[1], mode], [*lines, (None, b"")])
        failed = failed or said is not None
        print(f"{mode}: {said or 'each line came with its token'}")
    sys.exit(failed)


if __name__ == "__main__":
    main()
