"""Names the texts that a C loader of PyYAML and one of this package read differently: other tokens, events, nodes, values or errors.

    cloaders.py [--turned | --fixes] < NAMES

NAMES are of files, a line each. All fields are compared, and all marks. Each text is read as bytes, from a file that gives few
bytes at a time, and as a string if it is UTF-8. Prints a line for each file that differs: its name, how it was read, and what
PyYAML's reading ended with. With `--turned` the proved loaders read another text, so all have to differ; with `--fixes` they have the
fixes. The last line, on standard error, has how many were read.

Run by clients.sh.
"""
import sys

import pokhvizi
import yaml

FIELDS = "anchor", "tag", "implicit", "value", "style", "flow_style", "explicit", "version", "tags", "encoding", "name", "plain"


class Slow:
    """A file that gives 61 bytes at a time."""

    def __init__(self, text):
        self.text, self.place = text, 0

    def read(self, size):
        self.place += min(size, 61)
        return self.text[self.place - min(size, 61):self.place]


def mark(at):
    return at and (at.name, at.index, at.line, at.column, str(at))


def error(failure):
    marks = [mark(getattr(failure, name, None)) for name in ("context_mark", "problem_mark")]
    return type(failure).__name__, str(failure), marks, getattr(failure, "position", None)


def fields(it):
    return type(it).__name__, mark(it.start_mark), mark(it.end_mark), [getattr(it, field, None) for field in FIELDS]


def nodes(root):
    """Returns the nodes below a root, each once, with the numbers of its children."""
    numbers, found, made = {id(root): 0}, [root], []

    def number(node):
        if id(node) not in numbers:
            numbers[id(node)] = len(found)
            found.append(node)
        return numbers[id(node)]

    for node in found:  # which grows
        value = node.value
        if isinstance(node, yaml.SequenceNode):
            value = [number(item) for item in value]
        elif isinstance(node, yaml.MappingNode):
            value = [(number(key), number(item)) for key, item in value]
        made.append((node.id, node.tag, value, mark(node.start_mark), mark(node.end_mark), getattr(node, "style", None),
                     getattr(node, "flow_style", None)))
    return made


def values(root):
    """Returns the collections of a value, each once, with the numbers of those in it: a few aliases may stand for a tree that no
    text has room for, or for one without end."""
    numbers, found, made = {}, [], []

    def told(it):
        if not isinstance(it, (dict, list, tuple, set)):
            return repr(it)
        if id(it) not in numbers:
            numbers[id(it)] = len(found)
            found.append(it)
        return numbers[id(it)]

    top = told(root)
    for it in found:  # which grows
        parts = [(told(key), told(item)) for key, item in it.items()] if isinstance(it, dict) else [told(item) for item in it]
        made.append((type(it), parts))
    return top, made


def drained(made, what):
    """Returns what comes, up to an error and with it."""
    seen = []
    try:
        for it in made:
            seen.append(what(it))
    except Exception as failure:
        seen.append(error(failure))
    return seen


READINGS = {
    "tokens": lambda source, lib: drained(yaml.scan(source, lib.CLoader), fields),
    "events": lambda source, lib: drained(yaml.parse(source, lib.CLoader), fields),
    "nodes": lambda source, lib: drained(yaml.compose_all(source, lib.CLoader), nodes),
    "one node": lambda source, lib: drained((yaml.compose(source, lib.CBaseLoader) for _ in "1"), lambda root: root and nodes(root)),
    "safe": lambda source, lib: drained(yaml.load_all(source, lib.CSafeLoader), values),
    "full": lambda source, lib: drained(yaml.load_all(source, lib.CFullLoader), values),
}


class Fixed:
    """The loaders of this package with the fixes, by the names that the readings take."""


for loader in "CBaseLoader", "CSafeLoader", "CFullLoader", "CLoader":
    setattr(Fixed, loader, type(loader, (getattr(pokhvizi, loader),), {"fixes": True}))


def sources(text):
    yield bytes
    yield Slow
    try:
        text.decode()
    except UnicodeDecodeError:
        return
    yield bytes.decode


def main(words):
    count = 0
    proved_loaders = Fixed if words == ["--fixes"] else pokhvizi
    for name in sys.stdin.read().splitlines():
        with open(name, "rb") as file:
            text = file.read()
        count += 1
        for source in sources(text):
            for reading, read in READINGS.items():
                proved = text + b"\n---\nturned: [" if words == ["--turned"] else text
                plain = read(source(text), yaml)
                if plain != read(source(proved), proved_loaders):
                    print(name, source.__name__, reading, " ".join(str(plain[-1:]).split())[:500], sep="\t")
    print("%d texts" % count, file=sys.stderr)


if __name__ == "__main__":
    main(sys.argv[1:])
