#!/usr/bin/env python3
"""Compares the two programs of examples: what they write of each text, byte for byte, and their exit statuses.

    python3 scripts/gate/compare_fronts.py YAML [WORD..]

YAML is a built `examples/yaml.c`; the words go to `examples/yaml_lines.py` when it writes events or nodes (`--program PATH`). The
texts are those of `scripts/parts/broken`, of `scripts/parts/whole`, none of which ends with a line feed, and the examples; each is written
as tokens, as events and as nodes. The exit status is 1 if the two differ.

Run by check_programs.sh.
"""
import subprocess
import sys
from concurrent.futures import ThreadPoolExecutor
from itertools import product
from pathlib import Path

TOP = Path(__file__).resolve().parents[2]
sys.path.insert(0, str(TOP / "scripts/parts"))
from usage import wrong_words  # noqa: E402

FOLDERS = ["scripts/parts/broken", "scripts/parts/whole", "examples"]
MODES = ["tokens", "events", "nodes"]


def run(words):
    """The exit status and the output of a command."""
    done = subprocess.run(words, stdout=subprocess.PIPE, stderr=subprocess.DEVNULL, timeout=60)
    return done.returncode, done.stdout


def difference(mode, path, program, words):
    """What differs between the two programs, if anything."""
    status, output = run([program, mode, path])
    other_status, other = run([sys.executable, TOP / "examples" / "yaml_lines.py", mode, path, *(words if mode != "tokens" else [])])
    if status != other_status:
        return f"{path.name} {mode}: yaml has status {status}, yaml_lines.py {other_status}"
    pairs = zip([*output.split(b"\n"), None], [*other.split(b"\n"), None])
    number, line, other_line = next(((n, *pair) for n, pair in enumerate(pairs, 1) if pair[0] != pair[1]), (0, None, None))
    return f"{path.name} {mode}: line {number}: yaml says {line}, yaml_lines.py {other_line}" if number else None


def main():
    if len(sys.argv) < 2 or sys.argv[1].startswith("-"):
        wrong_words(__doc__)
    texts = [path for folder in FOLDERS for path in sorted((TOP / folder).glob("*.yaml"))]
    for path in texts:
        if path.parent.name == "whole" and path.read_bytes().endswith(b"\n"):
            sys.exit(f"{path.name} ends with a line feed")
    with ThreadPoolExecutor(4) as pool:
        found = pool.map(lambda pair: difference(*pair, sys.argv[1], sys.argv[2:]), product(MODES, texts))
        wrong = [text for text in found if text]
    print("\n".join([*wrong, f"{len(texts)} texts, {len(MODES) * len(texts)} runs of each program, {len(wrong)} differ"]))
    sys.exit(1 if wrong or not texts else 0)


if __name__ == "__main__":
    main()
