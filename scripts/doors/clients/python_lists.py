"""Gives each list of up to N tokens to this package's loaders in C and to PyYAML's, in the place of libyaml's scanner:

    python_lists.py N REFUSED ODD

Events, nodes and errors must be PyYAML's, with all fields and marks. For lists of up to REFUSED tokens each allocation of
libyaml_events.h fails in turn; and there are bounds, which end events where they end nodes, in the same words. For those of up to ODD, calls for tokens, events and nodes follow
one another in each order. After each run there are no more bytes and no more objects than before. Lists that begin with an error aren't
made longer.

Wants python_lists.c preloaded, and the extension and PyYAML's both over libyaml's shared library, the former built so that each
stack and table has room for one entry at first. clients.sh runs it.
"""
import ctypes
import gc
import itertools
import sys

import yaml
from cloaders import drained, error, fields, nodes

import pokhvizi

LISTS = ctypes.CDLL(None)
LISTS.lists_bytes.restype = ctypes.c_size_t
LISTS.lists_refuse.restype = ctypes.c_long
LISTS.lists_refuse.argtypes = [ctypes.c_long]
KINDS = LISTS.lists_kinds()
NOTHING = [0, 0]
GIVEN = (ctypes.c_int * 12)()
BOUNDS = [(0, 0, 0), (1, 1, 1), (2, 2, 2), (None, None, 6), (None, 3, None)]
CALLS = "get_token", "peek_token", "get_event", "peek_event", "check_node", "get_node"
count = {"lists": 0, "failed allocations": 0, "events to a bound on nodes": 0, "calls in each order": 0}
wrong = 0


class Own(pokhvizi.CSafeLoader):
    pass


BOUNDED = [type("Bounded", (Own,), dict(zip(("max_depth", "max_nodes", "max_expanded"), bounds))) for bounds in BOUNDS]


def expect(holds, what, kinds, *told):
    global wrong
    if not holds:
        wrong += 1
        if wrong <= 20:
            print("wrong: %s: %s\n%s" % (what, [LISTS.lists_type(kind) for kind in kinds], "\nand not\n".join(map(str, told))))


def begin(kinds):
    GIVEN[:len(kinds)] = kinds
    LISTS.lists_begin(GIVEN, len(kinds))


def in_use():
    return LISTS.lists_bytes(), sys.getallocatedblocks()


def run(kinds, read, loader):
    """Returns what a loader reads of a list."""
    begin(kinds)
    return read(loader)


def left_by(kinds, act, collect):
    """How many bytes and objects more there are after an act than before; first it is done once, if cycles are collected."""
    if collect:
        begin(kinds)
        act()
        gc.collect()
    begin(kinds)
    size, count_before = in_use()
    act()
    if collect:  # a node may be within itself
        gc.collect()
    size_after, count_after = in_use()
    return size_after - size, count_after - count_before


def more_after(kinds, act, collect):
    """Whether an act leaves more than one that does nothing, which leaves the numbers that were counted."""
    return any(left > right for left, right in zip(left_by(kinds, act, collect), NOTHING))


def leave_nothing(kinds, act):
    """An act on a list leaves nothing: not even if more is there after it, thrice on end."""
    if more_after(kinds, act, False) and all(more_after(kinds, act, True) for _ in range(3)):
        expect(False, "bytes or objects are left", kinds)


def events(loader):
    return drained(yaml.parse(b"", loader), fields)


def documents(loader):
    return drained(yaml.compose_all(b"", loader), nodes)


def is_error(last):
    return isinstance(last, tuple) and last[0].endswith("Error")


def split(told):
    """What was told before an error, and the error or None."""
    return (told[:-1], told[-1]) if told and is_error(told[-1]) else (told, None)


def is_of_nodes(failure):
    return failure is not None and ("found too many nodes" in failure[1] or "found an alias within" in failure[1])


def read_refused(read, loader, at):
    """Returns what a loader reads while an allocation fails, and whether one did."""
    LISTS.lists_refuse(at)
    try:
        told = read(loader)
    except MemoryError as failure:  # of the loader itself
        told = [error(failure)]
    return told, LISTS.lists_refuse(0) == 0


def refuse_in_turn(kinds, read, loader):
    whole, _ = split(run(kinds, read, loader))
    for at in itertools.count(1):
        begin(kinds)
        told, was_refused = read_refused(read, loader, at)
        if not was_refused:
            return
        count["failed allocations"] += 1
        before, failure = split(told)
        expect(failure and failure[0] == "MemoryError" and before == whole[:len(before)], "an allocation failed", kinds, before, failure)
        leave_nothing(kinds, lambda: read_refused(read, loader, at))


def bound_all(kinds, refuses):
    whole = split(run(kinds, events, Own))[0], split(run(kinds, documents, Own))[0]
    for loader in BOUNDED:
        found, failure = split(run(kinds, events, loader))
        roots, reason = split(run(kinds, documents, loader))
        expect((found, roots) == (whole[0][:len(found)], whole[1][:len(roots)]), "before a bound", kinds, found, roots)
        goes_on = reason and ("undefined alias" in reason[1] or "duplicate anchor" in reason[1])
        expect(not is_of_nodes(reason) or is_of_nodes(failure) and failure[1:] == reason[1:], "events go on past a bound", kinds, failure,
               reason)
        expect(not is_of_nodes(failure) or failure[0] == "ParserError" and (is_of_nodes(reason) or goes_on),
               "events have a bound of their own", kinds, failure, reason)
        count["events to a bound on nodes"] += is_of_nodes(failure)
        if refuses:
            refuse_in_turn(kinds, events, loader)


def call_in_each_order(kinds):
    for order in itertools.product(CALLS, repeat=3):
        count["calls in each order"] += len(order)
        begin(kinds)
        loader = Own(b"")
        for name in order:
            try:
                getattr(loader, name)()
            except (yaml.YAMLError, RuntimeError):
                pass


def try_list(kinds, refused, odd):
    """Returns whether a longer list that begins so says more."""
    count["lists"] += 1
    made = run(kinds, events, Own)
    wants_more = LISTS.lists_wants_more()
    wanted = run(kinds, events, yaml.CSafeLoader)
    expect(made == wanted, "events", kinds, made, wanted)
    made, wanted = run(kinds, documents, Own), run(kinds, documents, yaml.CSafeLoader)
    expect(made == wanted, "nodes", kinds, made, wanted)
    leave_nothing(kinds, lambda: events(Own))
    leave_nothing(kinds, lambda: documents(Own))
    if len(kinds) <= refused:
        refuse_in_turn(kinds, events, Own)
        refuse_in_turn(kinds, documents, Own)
        bound_all(kinds, True)
    if len(kinds) <= odd:
        leave_nothing(kinds, lambda: call_in_each_order(kinds))
    return wants_more


def try_longer(kinds, most, refused, odd):
    if try_list(kinds, refused, odd) and len(kinds) < most:
        for kind in range(KINDS):
            try_longer(kinds + [kind], most, refused, odd)


# By libyaml's numbers: of these the first token, and both anchors.
FEW = {10: 1, 11: 1, 12: 1, 13: 1, 15: 1, 16: 1, 18: 1, 19: 2, 21: 1}


def few_kinds():
    left = dict(FEW)
    for kind in range(KINDS):
        left[LISTS.lists_type(kind)] = left.get(LISTS.lists_type(kind), 0) - 1
        if left[LISTS.lists_type(kind)] >= 0:
            yield kind


def bound_longer(kinds, most, refused, few):
    """Bounds on nodes need longer lists, of few kinds of tokens."""
    run(kinds, events, Own)
    wants_more = LISTS.lists_wants_more()
    if len(kinds) > refused and wants_more:
        bound_all(kinds, False)
    if wants_more and len(kinds) < most:
        for kind in few:
            bound_longer(kinds + [kind], most, refused, few)


def main(words):
    most, refused, odd = map(int, words)
    gc.disable()
    NOTHING[:] = min(left_by([], lambda: None, True) for _ in range(3))
    try_longer([], most, refused, odd)
    bound_longer([0], most + 1, refused, list(few_kinds()))
    told = ", ".join("%d %s" % (number, what) for what, number in count.items())
    print("lists of up to %d tokens: %s%s" % (most, told, ", %d wrong" % wrong if wrong else ""))
    return wrong != 0


if __name__ == "__main__":
    sys.exit(main(sys.argv[1:]))
