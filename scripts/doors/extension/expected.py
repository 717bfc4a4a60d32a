"""What was expected where a token was refused: test vectors, and drawn texts by the loaders in C and in Python.

    expected.py COUNT SEED [--turned]

Each test vector is a text, what the C loader says, and what it says with the fixes, if that is another thing. Of COUNT texts that are drawn
the C loader with the fixes and the loader in Python, whose scanners differ, say the same wherever both refuse a token at one place
of the text. Exits with status 1 if something differs; with `--turned` a word is.

Run by extension_checks.sh.
"""
import os
import random
import sys

import pokhvizi
import yaml

sys.path.insert(0, os.path.join(os.path.dirname(os.path.dirname(os.path.abspath(__file__))), "clients"))
import exact  # noqa: E402

NODE = ("a scalar", "a tag", "'['", "'{'")
VECTORS = [
    ("[a\n  }", ("','", "']'"), None),
    ("{a: b ]", ("','", "'}'"), None),
    ("- a\nb: c", ("'-'", "the end of the block sequence"), None),
    ("a: b\n- c", ("a key", "the end of the block mapping"), ("a key", "a value", "the end of the block mapping")),
    ("k:\n- &x ,", (*NODE, "a block sequence", "a block mapping", "'-'", "a key", "the end of the block mapping"),
     (*NODE, "a block sequence", "a block mapping", "'-'", "a key", "a value", "the end of the block mapping")),
    ("&a &b c", (*NODE, "a block sequence", "a block mapping", "%YAML", "%TAG", "'---'", "'...'", "the end of the stream"), None),
    ("a\nb", None, None),
    ("%YAML 1.1\n%YAML 1.1\n---", ("%TAG", "'---'"), None),
    ("%YAML 2.0\n---", (), None),
    ("!e!x a", (), None),
    ("%TAG !e! a\n%TAG !e! b\n---", (), None),
]


class Fixed(pokhvizi.CSafeLoader):
    fixes = True


def refusal(loader, text):
    """Returns where the parser refuses a text, and what was expected there; None if it doesn't."""
    try:
        for _ in yaml.parse(text, Loader=loader):
            pass
    except yaml.parser.ParserError as error:
        return error.problem_mark.line, error.problem_mark.column, error.expected
    except yaml.YAMLError:
        pass
    return None


def main(count, seed, is_turned):
    wrong = compared = 0
    for text, plain, fixed in VECTORS:
        for loader, wanted in (pokhvizi.CSafeLoader, plain), (Fixed, fixed or plain), (pokhvizi.SafeLoader, fixed or plain):
            said = refusal(loader, text)
            said = said and said[2]
            if said != (wanted and wanted[1:] if is_turned else wanted):
                wrong += 1
                print(f"wrong: {text!r} by {loader.__name__}: {said}")
    for number in range(count):
        text = exact.drawn(random.Random(f"{seed} {number}"))
        first, second = refusal(Fixed, text), refusal(pokhvizi.SafeLoader, text)
        if first and second and first[:2] == second[:2]:
            compared += 1
            if first != second:
                wrong += 1
                print(f"wrong: {text!r}: {first}, {second}")
    print(f"{len(VECTORS)} test vectors, {compared} of {count} texts refused by both: {wrong} wrong")
    return wrong > 0 or compared == 0


if __name__ == "__main__":
    sys.exit(main(int(sys.argv[1]), sys.argv[2], "--turned" in sys.argv))
