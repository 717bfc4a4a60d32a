"""Texts for unique keys, and the comparison of what each door parses or loads of them.

    unique_keys.py write DIR COUNT SEED       writes test vectors and drawn texts as files of DIR; prints their names
    unique_keys.py compare events|nodes FREE UNIQUE [--turned] < NAMES

FREE and UNIQUE are the events or nodes of these files, in lines that begin as those of events.c and bounds.rs, without unique keys and
with them. What the second should be is made of the first and of PyYAML's events, where each key is compared with each of its mapping: up
to the first that its mapping has all is as without, and there is the error, with the marks of both. An alias is the node that it
names. Keys are the same if they are one node, or scalars of the same tag and text; a scalar without a tag is a string if it is quoted, or
plain and none that a loader may take for something else (OTHERS); such scalars are the same if they have the same text. With `--turned`
the marks are exchanged, so that it fails. Prints how many texts have such a key, and how many none.

Run by clients.sh.
"""
import random
import re
import sys
from pathlib import Path

import yaml

sys.path.insert(0, str(Path(__file__).resolve().parents[1] / "extension"))
import exact
import keys as keys_of_texts
from keys import drawn

LONG = "".join(f"k{number}: x\n" for number in range(500)) + "k7: x\n"
# a text, and the indices of the first key and of the second
VECTORS = [
    ("a: 1\na: 2\n", (0, 5)),
    ("a: 1\n'a': 2\n", (0, 5)),
    ("1: 1\n'1': 2\n", None),
    ("yes: 1\n'yes': 2\nyes: 3", (0, 16)),
    ("3rd: 1\n'3rd': 2", (0, 7)),
    ("~: 1\n? : 2", None),
    ("! '1': a\n1: b", (0, 9)),
    ("&x 'k': 1\na: {k: 1, *x : 2}", (14, 20)),
    ("&x k: 1\na: {? *x : 1, [k]: 2, \"k\": 2}", (0, 30)),
    ("? {a: 1, b: 2}\n: c\na: 1\na: 2", (19, 24)),
    ("'a': 1\n\"a\": 2\n", (0, 7)),
    ("{a, b, a}", (1, 7)),
    ("1: a\n!!str 1: c", None),
    ("a: a\n!!str a: c", (0, 5)),
    ("1: a\n!!int 1: c", None),
    ("- &x {k: *x}\n- {*x : 1, *x : 2}", (2, 24)),
    ("? [a]\n? [a]\n", None),
    ("? &k a\n: b\n? *k\n: c", (2, 13)),
    ("a: {a: {a: 1}}\nb: {a: 1, b: 2}", None),
    ("{? , ? }", (3, 7)),
    ("a: {b: 1, b: 2}\na: 3", (4, 10)),
    ("x: 1\n---\nx: 1\n", None),
    ("x: 1\n---\nx: 1\nx: 2", (9, 14)),
    ('"\\0a": 1\n"\\0b": 2\n"\\0a": 3\n', (0, 18)),
    ("{a: *u, a: 1}", None),
    ("{a: 1, a: *u}", (1, 7)),
    (LONG, (LONG.index("k7:"), LONG.rindex("k7:"))),
]
DEFAULT = "tag:yaml.org,2002:str"
# what PyYAML, YAML 1.2 and Ruby's psych may take a plain scalar for, if it is no string; and some more that looks so
OTHERS = re.compile(r"|~|null|true|false|yes|no|on|off|y|n|<<|=|[-+]?\.(inf|nan)|:.*|"
                    r"(?=[-+.0-9])(?=.*[0-9])[-0-9a-fxobtz_:,.+ \t]+", re.I | re.A | re.S)


def first_duplicate(text, loads):
    """The number of events and of documents before the first duplicate key, if no error comes before it, and the marks of both keys; or
    None."""
    number, document, stack, anchors = 0, -1, [], {}
    try:
        for number, event in enumerate(yaml.parse(text, Loader=yaml.CLoader)):
            if isinstance(event, yaml.DocumentStartEvent):
                document, stack, anchors = document + 1, [], {}
            elif isinstance(event, (yaml.SequenceEndEvent, yaml.MappingEndEvent)):
                stack.pop()
            elif isinstance(event, yaml.NodeEvent):
                found = take(event, stack, anchors, loads)
                if found:
                    return (document if loads else number), *found
    except (yaml.YAMLError, KeyError):
        pass
    return None


def what(event):
    """What is compared of a key."""
    if not isinstance(event, yaml.ScalarEvent):
        return event
    tag = None if event.tag == "!" else event.tag
    if tag is None:
        tag = "?" if event.implicit[0] and OTHERS.fullmatch(event.value) else DEFAULT
    return "scalar", tag, event.value


def take(event, stack, anchors, loads):
    """Puts a node or an alias at its place; returns the marks of its mapping's key and its own, if they are the same. A load wants each
    anchor once, and an alias of one."""
    key = event
    if isinstance(event, yaml.AliasEvent):
        key = anchors[event.anchor] if loads else anchors.get(event.anchor, event)
    elif event.anchor is not None:
        if loads and event.anchor in anchors:
            raise KeyError(event.anchor)
        anchors[event.anchor] = event
    if stack and stack[-1] is not None:
        keys, is_key = stack[-1]
        stack[-1] = keys, not is_key
        if is_key:
            for first in keys:
                one, other = what(first), what(key)
                if one is other or (isinstance(one, tuple) and one == other):
                    return first.start_mark, event.start_mark
            keys.append(key)
    if isinstance(event, yaml.CollectionStartEvent):
        stack.append(([], True) if isinstance(event, yaml.MappingStartEvent) else None)
    return None


def place(mark):
    return f"{mark.index}:{mark.line}:{mark.column}"


def wanted_of(free, text, loads, is_turned):
    """The lines that a text should give where keys have to differ, without the error's number and offsets; whether one is refused."""
    found = first_duplicate(text, loads)
    if not found:
        return free, False
    count, first, second = found
    starts = [at for at, line in enumerate(free) if not loads or line.startswith("DOCUMENT")] + [len(free)] * 2
    before = [line for line in free[:starts[count]] if not line.startswith("error ")]
    if is_turned:
        first, second = second, first
    return before + [f"{'composer' if loads else 'parser'} found duplicate key {place(second)} first occurrence {place(first)}"], True


def compare(loads, free_name, unique_name, is_turned):
    free, made, counts, wrong = exact.blocks(free_name), exact.blocks(unique_name), [0, 0], 0
    for name in sys.stdin.read().split():
        wanted, is_refused = wanted_of(free[name], Path(name).read_bytes(), loads, is_turned)
        counts[is_refused] += 1
        lines = made[name]
        if is_refused and lines and lines[-1].startswith("error "):
            words = lines[-1].split()
            lines = lines[:-1] + [" ".join([{"4": "parser", "5": "composer"}.get(words[1], words[1])] + words[2:9])]
        if lines != wanted:
            wrong += 1
            print(f"{name}: {lines[-1:]}, and not {wanted[-1:]}", file=sys.stderr)
    print(counts[True], counts[False])
    return wrong > 0


def write(folder, count, seed):
    texts = [text for text, _ in VECTORS]
    few = keys_of_texts.KEYS[:]
    for number in range(count):
        random_ = random.Random(f"{seed} {number}")
        keys_of_texts.KEYS[:] = few if number % 2 else random_.sample(keys_of_texts.OPEN, 12) + few[:4]
        texts.append("".join("--- " + drawn(random_, []) + "\n" for _ in range(random_.choice([1, 1, 2, 3]))))
    for number, text in enumerate(texts):
        path = Path(folder) / f"{number}.yaml"
        path.write_text(text)
        print(path)
    for text, marks in VECTORS:
        found = first_duplicate(text, True)
        if (found and (found[1].index, found[2].index)) != marks:
            sys.exit(f"{text!r}: {found}, and not {marks}")


if __name__ == "__main__":
    if sys.argv[1] == "write":
        write(sys.argv[2], int(sys.argv[3]), sys.argv[4])
    else:
        sys.exit(compare(sys.argv[2] == "nodes", sys.argv[3], sys.argv[4], "--turned" in sys.argv))
