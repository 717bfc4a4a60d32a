#!/usr/bin/env python3
"""Tells which parts of proofs by hand (`proofs/**/Answers.antt`) are needed; fails if one is not needed.

    python3 scripts/answers.py CRATE..        (no crate: each that has such a file)

In a copy of the repository all such files of a crate are moved away at once, and `rt check --allow-holes` says which
functions are not proved then. Their files are put back, and the check is run again, until the crate is proved. What is
still away is not needed. A check that takes longer than LIMIT seconds (900 if the variable is not set) is stopped; a
function that it had not proved by then needs its file. Needs `rt`; a crate takes some minutes, and no file of the
repository is changed.

Run by hand, after proofs changed.
"""
import os
import re
import shutil
import signal
import subprocess
import sys
import tempfile
from pathlib import Path

TOP = Path(__file__).resolve().parent.parent
sys.path.insert(0, str(TOP / "scripts/parts"))
from usage import wrong_words  # noqa: E402

LIMIT = int(os.environ.get("LIMIT", "900"))


def copied(room):
    """A copy of the crates with what was proved and built of them, so that `rt` proves again only what changes in it."""
    shutil.copytree(TOP / "crates", room / "crates", symlinks=True)
    for name in ("crates.txt", "HANDLES"):
        shutil.copy2(TOP / name, room / name)


def answers(crate):
    """The answers of a crate, by the function that each is of, as `step::item_at`."""
    return {"::".join(path.parent.relative_to(crate / "proofs").parts): path for path in sorted(crate.glob("proofs/**/Answers.antt"))}


def checked(crate):
    """The status of a check, 0 where all is proved and None where it was stopped, and what it wrote."""
    with open(crate / "check.log", "w+") as log:
        run = subprocess.Popen(["rt", "check", "--allow-holes"], cwd=crate, stdin=subprocess.DEVNULL, stdout=log, stderr=log, start_new_session=True)
        try:
            status = run.wait(LIMIT)
        except subprocess.TimeoutExpired:
            os.killpg(run.pid, signal.SIGTERM)
            run.wait()
            status = None
        log.seek(0)
        return status, log.read()


def lacking(status, said, away):
    """Those of the functions without their answers whose proof the check did not accept."""
    if status is None:
        done = set(re.findall(r"^checked \w+::(\S+),", said, flags=re.M))
        return [name for name in away if name not in done]
    refused = set(re.findall(r"^(?:fn|impl) \w+::(\S+): (?:not proved|no proof(?!: it calls)|could not tell)", said, flags=re.M))
    return [name for name in away if name in refused]


def tried(crate):
    """Which functions of the crate need their answers, and which do not."""
    away, texts = answers(crate), {}
    for name, path in away.items():
        texts[name] = path.read_text()
        path.unlink()
    needed = []
    while True:
        status, said = checked(crate)
        if status == 0:
            return needed, list(away)
        back = lacking(status, said, away)
        if not back:
            sys.exit(f"{crate.name}: not proved, and by no function that lacks its answers:\n{said[-2000:]}")
        for name in back:
            away.pop(name).write_text(texts[name])
            needed.append(name)


def main(names):
    if not all((TOP / "crates" / name / "src").is_dir() for name in names):
        wrong_words(__doc__)
    names = names or sorted({path.relative_to(TOP / "crates").parts[0] for path in TOP.glob("crates/*/proofs/**/Answers.antt")})
    lost = 0
    with tempfile.TemporaryDirectory() as room:
        copied(Path(room))
        for name in names:
            crate = Path(room) / "crates" / name
            needed, others = tried(crate)
            for function in sorted([*needed, *others]):
                print(f"{name}::{function}: {'needed' if function in needed else 'not needed'}", flush=True)
            lost += len(others)
    if lost:
        sys.exit(f"{lost} not needed")


if __name__ == "__main__":
    main(sys.argv[1:])
