"""What the C loaders of bindings/python tell of an error beside its words, and the comparison with the crate.

    errors.py exact|fixes < NAMES    of each file, by events and by nodes, what errors.rs writes
    errors.py compare ONE OTHER      of two such outputs

`compare` says how many errors there are, of how many with something that was expected, of how many with a name; its status is 1 if one
is told otherwise, or none is told.

Run by clients.sh.
"""
import re
import sys
from pathlib import Path


def read(has_fixes):
    import pokhvizi
    import yaml

    class Loader(pokhvizi.CLoader):
        fixes = has_fixes

    for name in sys.stdin.read().split("\n")[:-1]:
        print("file", name)
        for what, read_all in ("events", yaml.parse), ("nodes", yaml.compose_all):
            try:
                for _ in read_all(Path(name).read_bytes(), Loader):
                    pass
            except (yaml.parser.ParserError, yaml.composer.ComposerError) as error:
                expected = " ".join(getattr(error, "expected", ()))
                print(f"{what} {error.problem_mark.index} {error.problem}: {expected} | {error.name or '-'}")
            except yaml.YAMLError:
                pass


def compare(one, other):
    one, other = (Path(name).read_text().splitlines() for name in (one, other))
    wrong = [(left, right) for left, right in zip(one, other) if left != right]
    told = [line for line in one if not line.startswith("file ")]
    counts = [sum(not re.search(lacks, line) for line in told) for lacks in (":  [|]", "[|] -$")]
    for pair in wrong[:10]:
        print(*pair, sep="\n")
    print(f"{len(told)} errors, {counts[0]} with what was expected, {counts[1]} with a name, {len(wrong)} told otherwise")
    return bool(wrong) or len(one) != len(other) or 0 in counts


if __name__ == "__main__":
    sys.exit(compare(*sys.argv[2:]) if sys.argv[1] == "compare" else read(sys.argv[1] == "fixes"))
