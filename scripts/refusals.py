#!/usr/bin/env python3
"""Writes into docs/mutants.txt, in its line `refused:`, which clause refuses each mutant, as `rt must-fail` says.

    python3 scripts/refusals.py CRATE..           (runs `rt must-fail CRATE..`)
    python3 scripts/refusals.py --from FILE       (reads what `rt must-fail` wrote, instead of running it)
    python3 scripts/refusals.py --check ..        (changes nothing, and fails if docs/mutants.txt says something else)

A mutant that breaks a proof by hand of a function (`proofs/**/Answers.antt`) is refused by shape, unless an equivalent mutant that
changes the same lines (`controls/`) is proved over that file. Then the reason is a goal that stays open without the parts of the
file that the mutant breaks: the mutant is made in the repository, these parts are left out, and the function is checked with its
holes; afterwards all is as before. If no goal stays open, it is refused by shape too. If another proof refuses it, for example of
a changed definition, the reason is a lemma. The last line counts. Needs `rt`, and the crates below proved.

Run by hand, after mutants or their functions changed.
"""
import re
import subprocess
import sys

from answers import TOP, answers, wrong_words
from controls import answered, is_by_shape, mutated
from mutant_lines import line_of, write_line

SAID = re.compile(r"must-fail (\w+)/([\w.-]+)\.edit: (.*)")
SHAPE = "by shape"


def clauses(crate, function):
    """The names of a function's clauses, None for one without a name, as its file of code has them."""
    *modules, name = function.split("::")
    for end in range(len(modules), -1, -1):
        path = crate / "src" / ("/".join(modules[:end]) + ".rt" if end else "lib.rt")
        head = re.search(rf"^[^\n/]*\bfn {name}\b.*?\{{$", path.read_text(), flags=re.M | re.S) if path.exists() else None
        if head:
            return [found or None for found in re.findall(r"\bensures\s*(\w*)\s*\{", head[0])]
    return []


def function_at(crate, path, line):
    """The function that a line of code stands in, by its module and name."""
    lines = (crate / path).read_text().splitlines()
    while lines[line - 1].strip().startswith("#"):
        line += 1
    names = [match[1] for text in lines[:line] if (match := re.match(r"\s*(?:pub(?:\([^)]*\))? )?(?:const |extern \"C\" )*fn (\w+)", text))]
    module = path.removeprefix("src/").removesuffix(".rt").replace("/", "::")
    return "::".join([module, *names[-1:]]).removeprefix("lib::")


def clause_of(crate, function, goal):
    """What a goal is about, in words. Its name may be cut off at its end."""
    names = clauses(crate, function)
    if match := re.match(r"(.*)-requires", goal):
        return f"what `{re.sub(r'-.*', '', match[1])}` requires"
    if match := re.search(r"-clause-(\w+)$", goal):
        whole = [name for name in names if name and name.startswith(match[1])]
        return f"`{whole[0] if len(whole) == 1 else match[1]}`"
    if goal.startswith("invariant_of-"):
        return "the invariant of its type"
    if re.match(r"loop-.*-(preserved|entered|entry)", goal):
        return "the invariant of its loop"
    if goal.startswith("returns"):
        return f"`{names[0]}`" if len(names) == 1 and names[0] else "its clause" if len(names) < 2 else "its clauses"
    return f"the lemma `{goal}`"


def turned(mutant):
    """The lines of functions that a mutant changes."""
    lines = {line.strip() for line in re.findall(r"^old: (.*)$", mutant.read_text(), flags=re.M)}
    return {line for line in lines if not line.startswith(("use ", "///", "const ", "pub const "))}


def is_proved_over(crate, function, mutant):
    """Whether an equivalent mutant that changes the same lines is proved over the answers of this function."""
    mutants = [own for own in crate.glob("controls/*.edit") if answered(crate, own) == function and not is_by_shape(own)]
    return any(turned(crate / "must-fail" / f"{mutant}.edit") <= turned(own) for own in mutants)


def without(text, names):
    """The text of an `Answers.antt` without those of some goals."""
    kept, is_one = [], False
    for line in text.splitlines(keepends=True):
        if line[0].isalpha():
            is_one = line.removeprefix("pub ").split()[0] in names
        kept += [] if is_one else [line]
    return "".join(kept)


def left_open(crate, function, mutant):
    """The goals of a function that a mutant leaves open, where the parts of `Answers.antt` that it breaks are left out."""
    path = answers(crate)[function]
    texts = mutated(crate, crate / "must-fail" / f"{mutant}.edit")
    was = {file: file.read_text() for file in [*texts, path]}
    try:
        for file, text in texts.items():
            file.write_text(text)
        while True:
            run = subprocess.run(["rt", "check", "--only", function, "--allow-holes"], cwd=crate, stdin=subprocess.DEVNULL, capture_output=True, text=True)
            said = run.stdout + run.stderr
            broken = re.findall(r"/Answers\.antt:\d+:\d+: error: `([^`]+)`", said)
            kept = without(path.read_text(), broken)
            if kept == path.read_text():
                return re.findall(r"^note: src/[\w/]+\.rt:\d+:\d+: .*?\(`([^`]+)`\)", said, flags=re.M)
            path.write_text(kept)
    finally:
        for file, text in was.items():
            file.write_text(text)


def reason(crate, mutant, said):
    """What refused a mutant: a clause, or its shape; None where it was not refused or nothing tells what refused it."""
    if not said.startswith("refused, as it must be"):
        return None
    if "only because a proof file names" in said:
        return SHAPE
    if lemma := re.search(r"proofs/[\w/]+\.antt:\d+:\d+: error: `([^`]+)`", said.replace("Answers.antt", "Answers")):
        return f"the lemma `{lemma[1]}`"
    goal = re.search(r"\(`([^`]+)(?:`|$)|error: `([^`]+)`", said)
    of_answers = re.search(r"proofs/([\w/+]+)/Answers\.antt:", said)
    of_code = re.search(r"(src/[\w/]+\.rt):(\d+):", said)
    if not goal or not (of_answers or of_code):
        return None
    if of_answers:
        function = of_answers[1].replace("/", "::")
        goals = left_open(crate, function, mutant) if is_proved_over(crate, function, mutant) else []
        if not goals:
            return SHAPE
    else:
        function = function_at(crate, of_code[1], int(of_code[2]))
    name = function.split("::")[-1]
    goals = goals if of_answers else [goal[1] or goal[2]]
    *most, last = dict.fromkeys(clause_of(crate, function, goal) for goal in goals)
    clause = f"{', '.join(most)} and {last}" if most else last
    own = re.search(rf"(^|_){name}$", mutant.partition("-")[0])
    return clause if own else re.sub(r"\bits (?!type)", "the ", clause) + f" of `{name}`"


def main(words):
    checks = "--check" in words
    words = [word for word in words if word != "--check"]
    if not words or words[0] != "--from" and not all((TOP / "crates" / name / "src").is_dir() for name in words) or words == ["--from"]:
        wrong_words(__doc__)
    if words[:1] == ["--from"]:
        said = open(words[1]).read()
    else:
        said = subprocess.run(["rt", "must-fail", *words], cwd=TOP, stdin=subprocess.DEVNULL, capture_output=True, text=True).stdout
    reasons, unknown = {}, []
    for crate, mutant, text in SAID.findall(said):
        why = reason(TOP / "crates" / crate, mutant, text)
        if why:
            reasons[crate, mutant] = why
        else:
            unknown.append(f"{crate}/{mutant}: {text[:200]}")
    differ = []
    for (crate, mutant), why in reasons.items():
        path = TOP / "crates" / crate / "must-fail" / f"{mutant}.edit"
        if line_of(path, "refused") != why:
            differ.append(f"{crate}/{mutant}: refused: {line_of(path, 'refused')}; and now: {why}")
            if not checks:
                write_line(path, "refused", why)
    if differ and checks:
        sys.exit("\n".join(differ))
    shapes = sum(why == SHAPE for why in reasons.values())
    print("\n".join([*unknown, f"{len(reasons) - shapes} by a clause, {shapes} by shape, {len(unknown)} not known"]))
    if unknown or not reasons:
        sys.exit(1)


if __name__ == "__main__":
    main(sys.argv[1:])
