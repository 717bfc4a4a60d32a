"""What docs/mutants.txt says of each mutant of crates/*/must-fail: lines below its crate and name.

    wrong: what the mutant does, if its name doesn't say so
    seen: the test that fails over it (mutants_seen.py writes this)
    refused: what the prover could not prove (refusals.py writes this)
    kept: the rule that it breaks, if others show its clauses too

Used by refusals.py, mutants_seen.py and gate/mutants.py.
"""
import re
from collections import Counter
from pathlib import Path

TOP = Path(__file__).resolve().parents[1]
FILE = TOP / "docs" / "mutants.txt"
KEYS = ("wrong", "seen", "refused", "kept")


def mutants():
    """Each mutant's file, in order."""
    return sorted(TOP.glob("crates/*/must-fail/*.edit"))


def name_of(path):
    return f"{path.parent.parent.name}/{path.stem}"


def said():
    """The head of the file, and what it says of each mutant: its lines by their keys."""
    head, _, rest = FILE.read_text().partition("\n\n")
    found, lines = {}, {}
    for line in rest.splitlines():
        if key := re.match(r" +(\w+): (.*)", line):
            lines[key[1]] = key[2]
        else:
            lines = found[line] = {}
    return head, found


def line_of(path, key):
    """What a line of a mutant says, None where it has none."""
    return said()[1].get(name_of(path), {}).get(key)


def write_line(path, key, says):
    """Makes a line of a mutant say this."""
    head, found = said()
    found.setdefault(name_of(path), {})[key] = says
    rows = (f"{name}\n" + "".join(f"    {key}: {lines[key]}\n" for key in KEYS if key in lines) for name, lines in sorted(found.items()))
    FILE.write_text(f"{head}\n\n" + "".join(rows))


def shown(path, refused):
    """The clauses that a mutant shows, each with its function, and with the file of that if the mutant changes it."""
    clauses, _, other = refused.partition(" of `")
    name = other.rstrip("`") or path.stem.partition("-")[0]
    files = [path.parents[1] / file for file in re.findall(r"^file: (.*)$", path.read_text(), flags=re.M)]
    home = next((file for file in files if re.search(rf"\bfn {name}\b", file.read_text())), path.parents[1])
    return {(home, name, clause) for clause in re.split(", | and ", clauses)}


def idle(found):
    """The mutants that show nothing that no other shows and have no line `kept:`, or have one without need."""
    shows = {name_of(path): shown(path, found[name_of(path)]["refused"]) for path in mutants()}
    counts = Counter(clause for name, clauses in shows.items() if "kept" not in found[name] for clause in clauses)
    for name, clauses in shows.items():
        is_kept = "kept" in found[name]
        if all(counts[clause] > (not is_kept) for clause in clauses) != is_kept:
            says = "what no other shows: its line `kept:` goes" if is_kept else "nothing that no other shows"
            yield f"docs/mutants.txt: {name} shows {says}"


def wrong_lines():
    """What is wrong with the file: mutants of which it doesn't say enough, that aren't there, or show nothing more."""
    found, there = said()[1], [name_of(path) for path in mutants()]
    wrong = [f"{name} has no line `{key}:`" for name in there for key in KEYS[1:3] if key not in found.get(name, {})]
    wrong += [f"{name} is no mutant" for name in found if name not in there]
    return [f"docs/mutants.txt: {one}" for one in wrong] or list(idle(found))
