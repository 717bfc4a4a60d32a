"""Keys that have to differ: test vectors, and drawn texts by the loaders in C and in Python beside PyYAML's own nodes.

    unique.py COUNT SEED [--turned]

Each test vector is a text and where `unique_keys` refuses it: the first key's line and column, and the second's. Of COUNT texts that
are drawn PyYAML composes the nodes, and a walk over them in the order of their events finds the first duplicate key: a loader has to
refuse it there, and without one to compose the same nodes. Exits with status 1 if something differs; with `--turned` a mark is.

Run by extension_checks.sh.
"""
import random
import sys

import pokhvizi
import yaml

from keys import drawn

VECTORS = [
    ("a: 1\na: 2\n", ((0, 0), (1, 0))),
    ("a: 1\n'a': 2\n", ((0, 0), (1, 0))),
    ("{a, b, a}", ((0, 1), (0, 7))),
    ("1: a\n'1': b\n!!str 1: c", ((1, 0), (2, 0))),
    ("- &x {k: *x}\n- {*x : 1, *x : 2}", ((0, 2), (1, 11))),
    ("? [a]\n? [a]\n", None),
    ("? &k a\n: b\n? *k\n: c", ((0, 2), (2, 2))),
    ("a: {a: {a: 1}}\nb: {a: 1, b: 2}", None),
    ("<<: {a: 1}\n<<: {b: 1}", ((0, 0), (1, 0))),
    ("{? , ? }", ((0, 3), (0, 7))),
    ("a: {b: 1, b: 2}\na: 3", ((0, 4), (0, 10))),
    ("x: 1\n---\nx: 1\n", None),
]


class Unique(pokhvizi.CSafeLoader):
    unique_keys = True


class UniqueBounded(Unique):
    max_nodes = 100000


class UniqueInPython(pokhvizi.SafeLoader):
    unique_keys = True


LOADERS = Unique, UniqueBounded, UniqueInPython


def mark(of):
    return of.line, of.column


def shape(node, seen):
    """What a node is, with its marks."""
    if id(node) in seen:
        return seen[id(node)]
    seen[id(node)] = len(seen)
    parts = node.value
    if isinstance(node, yaml.SequenceNode):
        parts = [shape(item, seen) for item in parts]
    elif isinstance(node, yaml.MappingNode):
        parts = [(shape(key, seen), shape(value, seen)) for key, value in parts]
    return type(node).__name__, node.tag, parts, mark(node.start_mark), mark(node.end_mark)


def composed(loader, text):
    """Returns the shapes of the documents before the end or the error, and where the error is: the two marks of a duplicate key."""
    documents = []
    try:
        for node in yaml.compose_all(text, Loader=loader):
            documents.append(shape(node, {}))
    except yaml.composer.ComposerError as error:
        if error.problem == "found duplicate key":
            return documents, (mark(error.context_mark), mark(error.problem_mark))
        return documents, error.problem
    except yaml.YAMLError:
        return documents, "refused"
    return documents, None


def first_duplicate(node, seen):
    """Returns the first duplicate key below a node: both nodes, and whether the second is an alias."""
    if id(node) in seen:
        return None
    seen[id(node)] = node
    if isinstance(node, yaml.SequenceNode):
        return next(filter(None, (first_duplicate(item, seen) for item in node.value)), None)
    keys = []
    for key, value in node.value if isinstance(node, yaml.MappingNode) else []:
        for first in keys:
            if first is key or type(first) is type(key) is yaml.ScalarNode and (first.tag, first.value) == (key.tag, key.value):
                return first, key, id(key) in seen
        keys.append(key)
        found = first_duplicate(key, seen) or first_duplicate(value, seen)
        if found:
            return found
    return None


def compare(text, loader):
    """Returns 1 if a duplicate key is found, 0 if there is none, and None if something differs."""
    wanted, error = composed(yaml.CSafeLoader, text)
    made, found = composed(loader, text)
    for number, node in enumerate(yaml.compose_all(text, Loader=yaml.CSafeLoader)):
        duplicate = first_duplicate(node, {})
        if duplicate:
            first, second, is_alias = duplicate
            if not isinstance(found, tuple) or made != wanted[:number] or found[0] != mark(first.start_mark):
                return None
            return 1 if is_alias or found[1] == mark(second.start_mark) else None
    return 0 if (made, found) == (wanted, error) else None


def main(count, seed, is_turned):
    wrong = duplicates = 0
    for text, wanted in VECTORS:
        for loader in LOADERS:
            found = composed(loader, text)[1]
            if found != (((0, 0), (0, 1)) if is_turned else wanted):
                wrong += 1
                print(f"wrong: {text!r} by {loader.__name__}: {found}")
    for number in range(count):
        text = drawn(random.Random(f"{seed} {number}"), [])
        for loader in LOADERS:
            compared = compare(text, loader)
            duplicates += compared or 0
            if compared is None:
                wrong += 1
                print(f"wrong: {text!r} by {loader.__name__}: {composed(loader, text)[1]}")
    print(f"{len(VECTORS)} test vectors, {count} texts, {duplicates} duplicate keys: {wrong} wrong")
    return wrong > 0 or duplicates == 0


if __name__ == "__main__":
    sys.exit(main(int(sys.argv[1]), sys.argv[2], "--turned" in sys.argv))
