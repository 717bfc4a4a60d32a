#!/usr/bin/env python3
"""Tries the equivalent mutants, `crates/*/controls/*.edit`; fails if one is refused, or one by shape is proved.

    python3 scripts/controls.py CRATE..        (no crate: each that has a mutant in must-fail/)

An equivalent mutant has the form of those in must-fail/; it changes how a function is written, not what it does. Each
is made in a copy, and `rt check --only` has to prove the function. One whose first line is `by shape` has to be refused:
there the proof by hand of the function (`proofs/**/Answers.antt`) fits no other way to write it, so it refuses a mutant of
must-fail/ whatever that means. Each function with such a proof and a mutant of its code has one here, whose name begins like
that mutant's; others may have one. Needs `rt`; some ten seconds each, after the crates below are proved.

Run by hand, after mutants or their functions changed.
"""
import re
import subprocess
import sys
import tempfile
from pathlib import Path

from answers import TOP, answers, copied, wrong_words


def mutated(crate, mutant):
    """The files that a mutant changes, with their texts, as `rt must-fail` makes them."""
    path, old, texts = None, None, {}
    for line in mutant.read_text().splitlines():
        key, _, text = line.partition(":")
        text = text.removeprefix(" ")
        if key == "file":
            path = crate / text
            texts.setdefault(path, path.read_text())
        elif key == "old":
            old = text
            if texts[path].count(old) != 1:
                sys.exit(f"{mutant}: {old!r} is {texts[path].count(old)} times in {path.name}")
        elif key == "new":
            texts[path] = texts[path].replace(old, text)
    return texts


def answered(crate, mutant):
    """The path of the function with answers that a mutant is named after, None where it has none."""
    begins = mutant.stem.partition("-")[0]
    found = [name for name in answers(crate) if re.search(rf"(^|_){re.escape(begins)}$", name.replace("::", "_"))]
    file = re.search(r"^file: src/(.*)\.rt$", mutant.read_text(), flags=re.M)
    module = file[1].replace("/", "::") + "::" if file and file[1] != "lib" else ""
    named = [name for name in found if begins in (name.split("::")[-1], "_".join(name.split("::")[-2:]))]
    own = [name for name in named if name.startswith(module)]
    if not own and file:  # a method in another file than its type
        types = re.findall(r"^impl(?:<.*?>)? (\w+)", (crate / "src" / f"{file[1]}.rt").read_text(), flags=re.M)
        own = [name for name in named if name.split("::")[-2:-1] and name.split("::")[-2] in types]
    return own[0] if own else None


def is_by_shape(mutant):
    return mutant.read_text().startswith("by shape\n")


def proved(crate, function):
    """Whether `rt check --only` proves a function, and what it wrote."""
    run = subprocess.run(["rt", "check", "--only", function], cwd=crate, stdin=subprocess.DEVNULL, capture_output=True, text=True)
    said = run.stdout + run.stderr
    counts = re.findall(r"^only=(\d+) proved=", said, flags=re.M)
    if not counts or counts[-1] == "0":
        sys.exit(f"{crate.name}: no verdict on {function}:\n{said[-2000:]}")
    return run.returncode == 0, said


def tried(crate, mutant):
    """What a mutant comes to: `proved`, `by shape`, or what is wrong with it."""
    function = answered(crate, mutant) or mutant.stem.partition("-")[0]
    texts = mutated(crate, mutant)
    was = {path: path.read_text() for path in texts}
    if was == texts:
        return "wrong: it changes nothing"
    for path, text in texts.items():
        path.write_text(text)
    is_proved, said = proved(crate, function)
    for path, text in was.items():
        path.write_text(text)
    if re.search(r"\berror\[[\w-]+\]", said):
        return f"wrong: it does not compile:\n{said[-1500:]}"
    if is_proved:
        return "wrong: it is proved, so it is not by shape" if is_by_shape(mutant) else "proved"
    first = next((line for line in said.splitlines() if re.search(r":\d+:\d+:", line)), "")
    return "by shape" if is_by_shape(mutant) else f"wrong: refused: {first}"


def lacking(crate):
    """The functions with answers and a mutant of their code in must-fail/ that have no mutant here."""
    turned = {answered(crate, mutant) for mutant in crate.glob("must-fail/*.edit") if "file: src/" in mutant.read_text()} - {None}
    return sorted(turned - {answered(crate, mutant) for mutant in crate.glob("controls/*.edit")})


def main(names):
    if not all((TOP / "crates" / name / "src").is_dir() for name in names):
        wrong_words(__doc__)
    names = names or sorted({path.parent.parent.name for path in TOP.glob("crates/*/must-fail/*.edit")})
    wrong = 0
    with tempfile.TemporaryDirectory() as room:
        copied(Path(room))
        for name in names:
            crate = Path(room) / "crates" / name
            for function in lacking(crate):
                print(f"{name}: {function} has answers and no mutant of equal meaning", flush=True)
                wrong += 1
            for mutant in sorted(crate.glob("controls/*.edit")):
                came = tried(crate, mutant)
                print(f"{name}/{mutant.name}: {came}", flush=True)
                wrong += came.startswith("wrong")
    if wrong:
        sys.exit(f"{wrong} not as they should be")


if __name__ == "__main__":
    main(sys.argv[1:])
