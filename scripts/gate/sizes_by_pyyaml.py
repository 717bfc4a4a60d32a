#!/usr/bin/env python3
"""Compares the counts that the test `steps` expects of its lists with those of PyYAML's composer.

    python3 scripts/gate/sizes_by_pyyaml.py [--write] [NAME..]        (no name: each list)

For each list of `bindings/plain/tests/data/steps` the events of `NAME.steps` are handed in one by one. After each, what came of
the document is ended (an empty value after a key that waits, and the ends of what is open), composed by PyYAML, and its nodes
are counted once for each way that leads to them. `NAME.sizes` has to tell so for each of its bounds: the deed, what the count
says, and the total. The exit status is 1 if one doesn't, and each is named. With --write, the files are written, with their
bounds; a file that isn't there gets three: none, the largest total, and one less.

Run by check_programs.sh. Needs PyYAML.
"""
import sys
from pathlib import Path

import yaml
from yaml.composer import Composer, ComposerError
from yaml.resolver import BaseResolver

TOP = Path(__file__).resolve().parents[2]
sys.path.insert(0, str(TOP / "scripts/parts"))
from usage import wrong_words  # noqa: E402

LISTS = TOP / "bindings/plain/tests/data/steps"
# The bound of a list's entries in that test, the largest total, and the numbers of `pokhvizi/compose.h`.
ENTRIES, LARGEST, NO_BOUND = 50, 2**63 - 1, 2**64 - 1
PASSES, BEGINS, ENDS, ROOT, ITEM, KEY, VALUE, CLOSES = range(8)
WITHIN, TOO_LARGE, ENDLESS, FULL = 0, 13, 14, 16


class Endless(Exception):
    """A node contains itself."""


class Events(Composer, BaseResolver):
    """PyYAML's composer over a list of events."""

    def __init__(self, events):
        Composer.__init__(self)
        BaseResolver.__init__(self)
        self.events = events

    def check_event(self, *kinds):
        return isinstance(self.events[0], kinds)

    def peek_event(self):
        return self.events[0]

    def get_event(self):
        return self.events.pop(0)


def text(field):
    return None if field == "-" else field[1:]


def event_of(line):
    """PyYAML's event of a line, or None where the line is a fault, or says where libyaml differs."""
    name, *fields = line.split()
    if name == "ALIAS":
        return yaml.AliasEvent(text(fields[2]))
    if name == "SCALAR":
        return yaml.ScalarEvent(text(fields[2]), "!", (True, True), text(fields[4]))
    if name == "SEQUENCE-START":
        return yaml.SequenceStartEvent(text(fields[2]), "!", True)
    if name == "MAPPING-START":
        return yaml.MappingStartEvent(text(fields[2]), "!", True)
    kinds = {
        "STREAM-START": yaml.StreamStartEvent,
        "STREAM-END": yaml.StreamEndEvent,
        "DOCUMENT-START": yaml.DocumentStartEvent,
        "DOCUMENT-END": yaml.DocumentEndEvent,
        "SEQUENCE-END": yaml.SequenceEndEvent,
        "MAPPING-END": yaml.MappingEndEvent,
    }
    return kinds[name]() if name in kinds else None


class Begun:
    """What came of a document."""

    def __init__(self):
        self.events, self.open = [], []

    def deed(self, event):
        """What an event does: to the document, or to its innermost open collection, which gets one child more."""
        if isinstance(event, yaml.CollectionEndEvent):
            return CLOSES
        if not self.open:
            return ROOT
        kind, children = self.open[-1]
        return ITEM if kind is yaml.SequenceEndEvent else VALUE if children % 2 else KEY

    def take(self, event):
        self.events.append(event)
        if isinstance(event, yaml.CollectionEndEvent):
            self.open.pop()
            return
        if self.open:
            self.open[-1][1] += 1
        if isinstance(event, yaml.SequenceStartEvent):
            self.open.append([yaml.SequenceEndEvent, 0])
        if isinstance(event, yaml.MappingStartEvent):
            self.open.append([yaml.MappingEndEvent, 0])

    def ended(self):
        """The events of the document with what is missing, and how many nodes were added."""
        added, ends = 0, []
        for kind, children in reversed(self.open):
            if kind is yaml.MappingEndEvent and children % 2:
                ends.append(yaml.ScalarEvent(None, "!", (True, True), ""))
                added += 1
            ends.append(kind())
        start, end = yaml.DocumentStartEvent(), yaml.DocumentEndEvent()
        return [yaml.StreamStartEvent(), start, *self.events, *ends, end, yaml.StreamEndEvent()], added


def children(node):
    if isinstance(node, yaml.SequenceNode):
        return node.value
    return [child for pair in node.value for child in pair] if isinstance(node, yaml.MappingNode) else []


def ways(node, done, above):
    """How many nodes the tree of a node has."""
    if id(node) in above:
        raise Endless
    if id(node) not in done:
        done[id(node)] = 1 + sum(ways(child, done, above | {id(node)}) for child in children(node))
    return done[id(node)]


def nodes_of(root):
    found, left = {}, [root]
    while left:
        node = left.pop()
        if id(node) not in found:
            found[id(node)] = node
            left += children(node)
    return list(found.values())


def count(begun):
    """How many nodes a document has, one for each way to it, and how many without repetitions; None if it is refused."""
    events, added = begun.ended()
    try:
        root = Events(events).get_single_node()
    except ComposerError:
        return None
    nodes = nodes_of(root)
    lists = [node.value for node in nodes if isinstance(node, yaml.CollectionNode)]
    if max([len(nodes) - added, *map(len, lists)]) > ENTRIES:
        return None
    return ways(root, {}, frozenset()) - added, len(nodes) - added


def lines(events, bound):
    """The lines of a list within a bound: each event's deed, what the count says, and the total."""
    said, total, room, begun = [], 0, 0, None
    for event in events:
        if begun is None or isinstance(event, yaml.DocumentEndEvent):
            deed = BEGINS if isinstance(event, yaml.DocumentStartEvent) else PASSES if begun is None else ENDS
            begun = Begun() if deed == BEGINS else None
            total = 0 if deed == BEGINS else total
            said.append(f"{deed} {WITHIN} {total}")
            continue
        deed = begun.deed(event)
        begun.take(event)
        try:
            counted = count(begun)
        except Endless:
            said.append(f"{deed} {ENDLESS} {total}")
            break
        if counted is None:
            break
        size, nodes = counted
        if size > min(bound, LARGEST):
            said.append(f"{deed} {TOO_LARGE} {total}")
            break
        if nodes > room:
            said.append(f"{deed} {FULL} {total}")
            room = nodes
        total = size
        said.append(f"{deed} {WITHIN} {total}")
    return said


def sections(events, bounds):
    return "".join(f"bound {bound}\n" + "".join(line + "\n" for line in lines(events, bound)) for bound in bounds)


def bounds_of(events):
    largest = max((int(line.split()[2]) for line in lines(events, NO_BOUND)), default=0)
    return [NO_BOUND, largest, largest - 1] if largest else [NO_BOUND]


def main(words):
    names = [word for word in words if word != "--write"] or sorted(path.stem for path in LISTS.glob("*.steps"))
    if not all((LISTS / f"{name}.steps").exists() for name in names):
        wrong_words(__doc__)
    wrong = 0
    for name in names:
        read = map(event_of, (LISTS / f"{name}.steps").read_text().splitlines())
        events, path = [event for event in read if event], LISTS / f"{name}.sizes"
        told = path.read_text() if path.exists() else ""
        bounds = [int(line.split()[1]) for line in told.splitlines() if line.startswith("bound ")] or bounds_of(events)
        wanted = sections(events, bounds)
        if "--write" in words:
            path.write_text(wanted)
        elif told != wanted:
            print(f"{name}: PyYAML counts otherwise")
            wrong += 1
    print(f"{len(names)} lists, {wrong} differ")
    return 1 if wrong else 0


if __name__ == "__main__":
    sys.exit(main(sys.argv[1:]))
