#!/usr/bin/env python3
"""Compares the crate `pokhvizi` with the proved program over many lists of tokens: events, nodes, marks, errors.

    python3 scripts/gate/same_machine.py [COUNT [LENGTH]]

The lists are those of all test vectors, COUNT drawn at random (scripts/differential/lists.py, without those that have a line that
is no token line), and each list of up to LENGTH tokens, of TOKENS below: COUNT is 600 and LENGTH 3 if none is named. A list
that begins with an error isn't made longer. The crate is built by cargo as a user does, with overflow checks and `panic = "abort"`, and its example
`lines` writes what yamltokens writes. The proved program is crates/yamltokens/out/yamltokens, or the one that PROGRAM names;
without one only the lists with lines of their own are compared, with these, and the last line says so. SEED is 1 unless it is set.

The status is 0 if no list differs, 1 if one does, 2 if something lacks. A changed output must be seen, or the status is 1.

Run by check_programs.sh. By hand, in half an hour on four cores: python3 scripts/gate/same_machine.py 100000 5
"""
import multiprocessing
import os
import subprocess
import sys
import tempfile
from pathlib import Path

TOP = Path(__file__).resolve().parents[2]
sys.path[:0] = [str(TOP / "scripts/differential"), str(TOP / "scripts/parts")]
import lists  # noqa: E402
from usage import wrong_words  # noqa: E402

MODES = ("events", "nodes")
AT_ONCE = 2000
SHOWN = 5
BARE = """STREAM-START STREAM-END DOCUMENT-START DOCUMENT-END BLOCK-SEQUENCE-START BLOCK-MAPPING-START BLOCK-END FLOW-SEQUENCE-START
FLOW-SEQUENCE-END FLOW-MAPPING-START FLOW-MAPPING-END BLOCK-ENTRY FLOW-ENTRY KEY VALUE NO-TOKEN""".split()
TOKENS = [(name, "utf8" if name == "STREAM-START" else "") for name in BARE] + [
    ("VERSION-DIRECTIVE", "1.1"), ("VERSION-DIRECTIVE", "2.0"), ("TAG-DIRECTIVE", "=!e! =p:"), ("ALIAS", "=a"), ("ALIAS", "=b"),
    ("ANCHOR", "=a"), ("TAG", "=!! =x"), ("TAG", "=! ="), ("TAG", "=!e! =x"), ("SCALAR", "=a plain"), ("SCALAR", "= double"),
]


def made(directory):
    """The example `lines`, built by cargo."""
    profile = {"CARGO_PROFILE_DEV_OPT_LEVEL": "2", "CARGO_PROFILE_DEV_OVERFLOW_CHECKS": "true", "CARGO_PROFILE_DEV_PANIC": "abort"}
    environment = dict(os.environ, CARGO_TARGET_DIR=directory, CARGO_NET_OFFLINE="true", **profile)
    words = ["cargo", "build", "-q", "--example", "lines"]
    subprocess.run(words, cwd=TOP, env=environment, check=True)
    return f"{directory}/debug/examples/lines"


def runs_of_crate(example, some):
    """What the crate gives for these lists, each a pair of outputs with their statuses."""
    ended = (one if one.endswith(b"\n") or not one else one + b"\n" for one in some)
    whole = b"".join(one + b"--\n" for one in ended)
    output = subprocess.run([example], input=whole, capture_output=True, check=True).stdout
    parts, told = [], []
    for line in output.splitlines(keepends=True):
        if line.startswith(b"== "):
            parts.append((b"".join(told), int(line[3:])))
            told = []
        else:
            told.append(line)
    assert len(parts) == 2 * len(some) and not told, "the crate gives another number of outputs"
    return list(zip(parts[::2], parts[1::2]))


def run_of_program(job):
    """What the proved program gives for a list, in both modes."""
    program, one = job
    runs = [subprocess.run([program, mode], input=one, capture_output=True) for mode in MODES]
    return tuple((run.stdout, run.returncode) for run in runs)


def stored_run(path):
    """The lines that stand beside a list of test vectors, where there are some."""
    files = [path.with_suffix(f".{mode}") for mode in MODES]
    return tuple((file.read_bytes(), None) if file.exists() else None for file in files)


def is_same(here, there):
    """Whether two runs have the same lines and statuses, as far as both are known."""
    return all(two is None or one[0] == two[0] and two[1] in (None, one[1]) for one, two in zip(here, there))


class Comparison:
    """Both sides of each list, and counts."""

    def __init__(self, example, program, pool):
        self.example, self.program, self.pool = example, program, pool
        self.compared = self.lines = self.differing = 0

    def compare(self, some, what):
        """Compares lists; returns what the crate gave."""
        here = runs_of_crate(self.example, some)
        if self.program:
            there = self.pool.map(run_of_program, [(self.program, one) for one in some], chunksize=32)
            self.count(some, here, there, what)
        return here

    def count(self, some, here, there, what):
        self.compared += len(some)
        for one, mine, proved in zip(some, here, there):
            self.lines += sum(output.count(b"\n") for output, _ in mine)
            if not is_same(mine, proved):
                self.differing += 1
                if self.differing <= SHOWN:
                    print(f"{what}: a list differs\n{one.decode()}crate:  {mine}\nproved: {proved}")

    def sees_changes(self):
        """Whether other lines, and another status, are seen."""
        ended, failed = runs_of_crate(self.example, [b"STREAM-START 0:0:0 0:0:0 utf8\nSTREAM-END 0:0:0 0:0:0\n", b""])
        turned = tuple((output, 1 - status) for output, status in ended)
        return is_same(ended, ended) and not is_same(ended, failed) and not is_same(ended, turned)


def vectors():
    """The files of lists of test vectors. Those of runs have lines that are no token lines."""
    folders = [TOP / "crates/vectors/data", *(TOP / "bindings/plain/tests/data" / name for name in ("steps", "exact"))]
    return sorted(file for folder in folders for file in folder.glob("**/*.tokens")) + sorted(TOP.glob("examples/*.tokens"))


def drawn(seed, count):
    number = found = 0
    while found < count:
        one = lists.draw(seed, number)
        number += 1
        if one.kind != lists.SPOILT_LINE:
            found += 1
            yield b"".join(one.lines)


def longer(ones):
    """Each of these lists with one token more."""
    for one in ones:
        place = one.count(b"\n")
        for name, fields in TOKENS:
            words = [name, f"{place}:0:{place}", f"{place + 1}:0:{place + 1}", *fields.split()]
            yield one + " ".join(words).encode() + b"\n"


def goes_on(run):
    """Whether the parser asked for a token more."""
    return b" no more tokens\n" in run[0][0]


def in_parts(ones):
    ones = iter(ones)
    while part := [one for _, one in zip(range(AT_ONCE), ones)]:
        yield part


def main():
    try:
        count, length = [int(word) for word in sys.argv[1:]] + [600, 3][len(sys.argv) - 1:]
    except ValueError:
        wrong_words(__doc__)
    program = Path(os.environ.get("PROGRAM") or TOP / "crates/yamltokens/out/yamltokens").resolve()
    program = str(program) if program.exists() else None
    with tempfile.TemporaryDirectory() as directory, multiprocessing.Pool() as pool:
        both = Comparison(made(directory), program, pool)
        files = vectors()
        tables = [file.read_bytes() for file in files]
        here = both.compare(tables, "test vectors")
        both.count(tables, here, [stored_run(file) for file in files], "stored lines")
        if program:
            for part in in_parts(drawn(os.environ.get("SEED", "1"), count)):
                both.compare(part, "drawn")
            ones = [b""]
            both.compare(ones, "no token")
            for _ in range(length):
                next_ones = []
                for part in in_parts(longer(ones)):
                    runs = both.compare(part, f"up to {length} tokens")
                    next_ones += [one for one, run in zip(part, runs) if goes_on(run)]
                ones = next_ones
        sees = both.sees_changes()
    how = f"{len(files)} lists of test vectors, {count} drawn, each of up to {length} tokens" if program else \
        f"{len(files)} lists of test vectors alone, with their lines: there is no proved program"
    print(f"{both.differing} of {both.compared} runs differ, {both.lines} lines: {how}{'' if sees else '; A CHANGE IS NOT SEEN'}")
    sys.exit(0 if sees and not both.differing and both.compared else 1)


if __name__ == "__main__":
    main()
