"""Texts at which libyaml does something else than this project's own grammar, and the comparison of what was read of them.

    exact.py write DIR COUNT SEED     draws texts, and writes them as files of DIR; prints their names
    exact.py plain|exact|fixes < NAMES
    exact.py compare PLAIN EXACT FIXES
    exact.py alike PLAIN EXACT

The second reads files by PyYAML's CLoader, and by that of bindings/python, without its fixes or with them. PLAIN, EXACT and FIXES are
its outputs, or those of events.c over these files: of libyaml, of a parser that is to do the same, and of one with the fixes. EXACT
must be libyaml's, byte by byte. Of `compare` the parser with the fixes must differ at all three places; `alike` takes any files.

Run by clients.sh.
"""
import os
import random
import sys

SCALARS = ["a", "b c", "'q'", '"d"', "|\n  text\n", "~", "1", "- x", "a: b", "*x", "&x a", "&x", "!t a", "!!str", "! a", "!a%00b c",
           "!e!f%00 g", "!u!v w", ""]
FLOW = ["[ ? ]", "[ ? , a ]", "[ ? : b ]", "[ ? : ]", "[ ? , ]", "[ ? a ]", "[ ? a : b, c ]", "[ : b ]", "[ a : b ]", "{ ? }", "{ ? : b }",
        "{ : b }", "{ a, b : c }", "[ [ ? ] ]", "{ a : [ ? : ] }", "[ ]", "{ }", "[ a, ", "[ a ] ]", "{ a : ", "[ ? &x ]", "[ ? *x ]",
        "[ ? { ? : } : [ ? ] ]"]
LINES = [": x", ":", "a: b", "a:", "- a", "-", "? a", "?", "- : x", "? b\n: c", "- - a", "- ? a\n  : b", "-\n  : x", "a:\n  : x", "a:\n- b",
         "a:\n- b\n: c", "{K}: {S}", "- {S}", "{S}", "? {F}", "- {F}", "a: {F}", "{F}", "# c", "", "\t", "&m\n: x", "!t\n: x"]
BREAKS = ["---", "...", "...\n...", "... # c", "--- a", "--- {S}", "%YAML 1.1\n---", "%YAML 1.2\n---", "%YAML 1.3\n---",
          "%TAG !e! tag:e,2000:\n---", "%TAG !u! u%00v\n---", "%TAG ! !\n---", "...\n%YAML 1.1", "...\n{S}", "...\n{F}", "...\n: x",
          "...\n- a", "...\na: b", "...\n%FOO\n---\nx", "a\n...\nb"]


def drawn(random_):
    pick = random_.choice
    lines = []
    for _ in range(random_.randint(1, 7)):
        line = pick(LINES if random_.random() < 0.65 else BREAKS)
        line = line.replace("{S}", pick(SCALARS)).replace("{F}", pick(FLOW)).replace("{K}", pick(["a", "? a", "[ ? ]", "&k a", "!t"]))
        indent = " " * pick([0, 0, 0, 0, 2, 2, 4])
        lines += [indent + part for part in line.split("\n")]
    text = "\n".join(lines) + pick(["\n", "\n", ""])
    if random_.random() < 0.1:
        place = random_.randrange(len(text) + 1)
        text = text[:place] + pick(list(":?-[]{},&*!|>'\"%#\n .") + ["\0"]) + text[place:]
    return text


def write(folder, count, seed, draw=drawn):
    for number in range(count):
        name = os.path.join(folder, f"{number}.yaml")
        with open(name, "w", encoding="utf-8", newline="") as file:
            file.write(draw(random.Random(f"{seed} {number}")))
        print(name)


def read(how):
    """Prints the events that a C loader gives."""
    import pokhvizi
    import yaml

    class Loader(yaml.CLoader if how == "plain" else pokhvizi.CLoader):
        fixes = how == "fixes"

    def mark(at):
        return at and (at.index, at.line, at.column)

    fields = "anchor", "tag", "implicit", "value", "style", "flow_style", "explicit", "version", "tags", "encoding"
    for name in sys.stdin.read().split("\n")[:-1]:
        print("file", name)
        try:
            with open(name, "rb") as file:
                for it in yaml.parse(file.read(), Loader):
                    print(type(it).__name__, mark(it.start_mark), mark(it.end_mark), [getattr(it, field, None) for field in fields])
        except yaml.YAMLError as failure:
            marks = [mark(getattr(failure, at, None)) for at in ("context_mark", "problem_mark")]
            print("error", type(failure).__name__, repr(str(failure)), marks)


def blocks(name):
    """The lines of each file."""
    found = {}
    with open(name, encoding="utf-8") as lines:
        for line in lines:
            if line.startswith("file "):
                here = found.setdefault(line[5:-1], [])
            else:
                here.append(line[:-1])
    return found


ERRORS = {"did not find expected key": "value_first", "did not find expected <document start>": "bare_document"}


def place_of(plain):
    """The place of a difference, by libyaml's error; where it goes on it has lost a token."""
    return next((place for words, place in ERRORS.items() if words in plain[-1]), "pair_key")


def alike(plain, exact):
    plain, exact = blocks(plain), blocks(exact)
    wrong = [name for name, lines in plain.items() if lines != exact.get(name)]
    print("\n".join(wrong[:20] + [f"{len(plain)} files, of which {len(wrong)} are read otherwise"]))
    return int(bool(wrong) or list(plain) != list(exact))


def compare(plain, exact, fixes):
    plain, exact, fixes = blocks(plain), blocks(exact), blocks(fixes)
    counts = {"alike": 0, "pair_key": 0, "value_first": 0, "bare_document": 0}
    wrong = [] if list(plain) == list(exact) == list(fixes) else ["other files"]
    for name, lines in plain.items():
        if exact.get(name) != lines:
            wrong.append(name)
        counts["alike" if fixes.get(name) == lines else place_of(lines)] += 1
    lacking = [word for word, count in counts.items() if count == 0]
    if wrong or lacking:
        print("\n".join(wrong[:20]))
        print(f"{len(wrong)} of {len(plain)} texts are wrong; with fixes none is: {' '.join(lacking) or 'nothing'}")
        return 1
    said = ", ".join(f"{count} {word}" for word, count in counts.items())
    print(f"{len(plain)} texts are read as by libyaml; with fixes {said}")
    return 0


if __name__ == "__main__":
    if sys.argv[1] == "write":
        write(sys.argv[2], int(sys.argv[3]), sys.argv[4])
    elif sys.argv[1] in ("compare", "alike"):
        sys.exit({"compare": compare, "alike": alike}[sys.argv[1]](*sys.argv[2:]))
    else:
        read(sys.argv[1])
