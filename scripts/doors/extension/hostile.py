"""Loaders in bad hands: deep texts, streams, methods and threads that call a loader at work, calls for tokens, events and nodes in any
order, wrong arguments, a second interpreter, a package without its extension, cycles and leaks.

    hostile.py [--turned] [LEVELS]

LEVELS is how deep the deep texts nest. Each case has an outcome that is wanted; with `--turned` each wants another, so all have
to be wrong. Says what is wrong, and exits with 1 if something is.

Run by extension_checks.sh.
"""
import copy
import ctypes
import gc
import inspect
import os
import pickle
import random
import signal
import struct
import subprocess
import sys
import tempfile
import threading
import time
import weakref

import pokhvizi
import yaml

TURNED = "--turned" in sys.argv
LEVELS = int(([word for word in sys.argv[1:] if word.isdigit()] or ["20000"])[0])
IN_USE = "RuntimeError: the loader is in use"
cases = wrong = 0


def said(act):
    """Returns what a call gives, or its error in words."""
    try:
        return act()
    except Exception as failure:
        return "%s: %s" % (type(failure).__name__, str(failure).split("\n")[0])


def expect(name, found, wanted):
    global cases, wrong
    cases += 1
    if (found == wanted) is TURNED:
        wrong += 1
        print("wrong: %s: %s, wanted was %s" % (name, str(found)[:300], str(wanted)[:300]))


# ---- Deep texts ----

def depth_of(node):
    depth = 0
    while node.value and not isinstance(node, yaml.ScalarNode):
        node, depth = node.value[0], depth + 1
        if isinstance(node, tuple):
            node = node[0]
    return depth


def deep():
    expect("deep sequences", depth_of(yaml.compose("- " * LEVELS + "x", Loader=pokhvizi.CSafeLoader)), LEVELS)
    expect("deep keys", depth_of(yaml.compose("? " * LEVELS + "x", Loader=pokhvizi.CSafeLoader)), LEVELS)
    expect("deep lists", said(lambda: len(yaml.load("- " * LEVELS + "x", Loader=pokhvizi.CSafeLoader))), 1)
    flow = min(LEVELS, 5000)  # libyaml's scanner looks at each open flow collection at each token
    expect("open sequences", said(lambda: yaml.compose("[" * flow, Loader=pokhvizi.CSafeLoader)),
           "ParserError: while parsing a flow node")


# ---- Bounds ----

def bounds():
    for base in pokhvizi.CSafeLoader, pokhvizi.SafeLoader:
        bounds_of(base)
    for act in ACTS:
        begun = time.process_time()
        expect("100 KB of brackets", bounded(pokhvizi.CSafeLoader, "[" * 100000, act, max_depth=1000), TOO_DEEP)
        expect("their time, which is 10 ms", time.process_time() - begun < 1, True)
    expect("the bounds of a class", (pokhvizi.CSafeLoader.max_depth, pokhvizi.CParser.max_nodes), (None, None))
    deep = "- " * 2000 + "x"
    for loader, wanted in ((pokhvizi.SafeLoader, "RecursionError"), (pokhvizi.CSafeLoader, 1)):
        found = bounded(loader, deep, yaml.compose_all)
        expect("a text that is too deep for PyYAML's composer", found if found == wanted else str(found).split(":")[0], wanted)
    expect("the same within a bound", bounded(pokhvizi.SafeLoader, deep, yaml.compose_all, max_depth=300), TOO_DEEP)

    class Notes(pokhvizi.SafeLoader):
        """Its own method stays in use."""
        max_nodes, noted = 3, 0

        def compose_node(self, parent, index):
            self.noted += 1
            return super().compose_node(parent, index)

    for is_put in False, True:  # on the loader too
        loader = Notes("[a, b]\n--- [c, d]\n--- [e, f, g]")
        own = loader.compose_node if is_put else None
        vars(loader).update({"compose_node": own} if is_put else {})
        expect("a loader with a method of its own", [said(loader.get_data) for _ in "123"] + [loader.noted],
               [["a", "b"], ["c", "d"], "ComposerError: found too many nodes", 9])
        loader.dispose()
        expect("what it leaves", vars(loader).get("compose_node"), own)

    class Puts(pokhvizi.SafeLoader):
        """Puts a method on itself within a document."""
        max_nodes = 9

        def compose_sequence_node(self, anchor):
            self.compose_node = self.own = super().compose_node
            return super().compose_sequence_node(anchor)

    loader = Puts("[a, b]")
    expect("a loader that puts a method on itself", [said(loader.get_data), vars(loader).get("compose_node")], [["a", "b"], loader.own])


ACTS = yaml.parse, yaml.compose_all, yaml.load_all
TOO_DEEP = "ParserError: found too many levels"


def bounded(base, text, act, **bounds):
    """How many things an act gives by a loader with these bounds, or its error."""
    return said(lambda: len(list(act(text, type("Bounded", (base,), bounds)))))


def events_to(base, text, **bounds):
    """The error that ends the events of a text, and its index."""
    try:
        list(yaml.parse(text, type("Bounded", (base,), bounds)))
    except yaml.MarkedYAMLError as failure:
        return "%s: %s" % (type(failure).__name__, failure.problem), failure.problem_mark.index


def bounds_of(base):
    for levels in (1, 2, 31, 32, 33, 63, 64, 65, 200):
        for text in ("[" * levels + "]" * levels, "- " * levels + "x", "? " * (levels - 1) + "- x"):
            for act in ACTS[:2]:
                free = bounded(base, text, act)
                expect("as deep as may be, %d" % levels, bounded(base, text, act, max_depth=levels), free)
                expect("deeper than may be, %d" % levels, bounded(base, text, act, max_depth=levels - 1), TOO_DEEP)
    expect("no collection", [bounded(base, text, yaml.compose_all, max_depth=0) for text in ("a", "- a")], [1, TOO_DEEP])
    many = "ComposerError: found too many nodes"
    for text, nodes in (("[a, b, c]", 4), ("{a: b, c: d}", 5), ("- &a b\n- *a\n- *a\n- *a\n", 4), ("--- a\n--- [b]\n", 2)):
        for act in ACTS[1:]:
            expect("as many nodes as may be", bounded(base, text, act, max_nodes=nodes), bounded(base, text, act))
            expect("more nodes than may be", bounded(base, text, act, max_nodes=nodes - 1), many)
    try:
        yaml.compose("- [a]\n- [b, [c]]", type("Bounded", (base,), {"max_depth": 2}))
    except yaml.YAMLError as failure:
        expect("where it is", (failure.problem_mark.line, failure.problem_mark.column, failure.context), (1, 6, None))
    for text, at in (("[a, b, c, d]", 10), ("- &a b\n- *a\n- *a\n- *a\n- *a\n", 24), ("[*a, *a, *a, *a, *a]", 17)):
        expect("events of more nodes than may be", events_to(base, text, max_nodes=4), ("ParserError: found too many nodes", at))
    for text, problem, at in (("[&a [b, c], *a, d]", "found too many nodes, with aliases written out", 16),
                              ("&a [b, *a]", "found an alias within the node that it names", 7)):
        expect("events of a tree that is too large", events_to(base, text, max_expanded=7), ("ParserError: " + problem, at))
    expect("events of anchors that a composer refuses", bounded(base, "[*a, *a, *a, &b [c], &b d, *b]", yaml.parse, max_expanded=5),
           14)
    for name in "max_depth", "max_nodes", "max_expanded":
        for bound in -1, "x", 1.5, -1 << 70, True:
            expect("no bound", bounded(base, "a", yaml.compose_all, **{name: bound}),
                   "ValueError: %s has to be None or a whole number from 0 on, and is %r" % (name, bound))
        for bound in (1 << 62, 1 << 63, 1 << 64, 1 << 70):
            expect("a bound that is larger than any", bounded(base, "[a]", yaml.compose_all, **{name: bound}), 1)
    expect("a second anchor too many", place_of_error(base, "[&a b, &a c]", max_nodes=2), (0, 7, "found too many nodes"))


# ---- Aliases written out ----

def bomb(levels, width):
    """A mapping of so many lists, each of which but the first names the one before so many times."""
    first = "a0: &a0 [" + ", ".join("x" * width) + "]\n"
    return first + "".join("a%d: &a%d [%s]\n" % (n, n, ", ".join(["*a%d" % (n - 1)] * width)) for n in range(1, levels))


def size_of(node, sizes):
    """How many nodes a node stands for with its aliases written out; none contains itself."""
    if id(node) not in sizes:
        children = [] if isinstance(node, yaml.ScalarNode) else node.value
        below = [part for child in children for part in (child if isinstance(child, tuple) else (child,))]
        sizes[id(node)] = 1 + sum(size_of(part, sizes) for part in below)
    return sizes[id(node)]


def place_of_error(base, text, **bounds):
    """The line and the column of the error that ends this text, and its words."""
    try:
        yaml.compose(text, type("Bounded", (base,), bounds))
    except yaml.composer.ComposerError as failure:
        return failure.problem_mark.line, failure.problem_mark.column, failure.problem


def expanded():
    for base in pokhvizi.CSafeLoader, pokhvizi.SafeLoader:
        expanded_by(base)


def expanded_by(base):
    many = "found too many nodes, with aliases written out"
    for text in ("a", "[a, b]", "{a: b}", "- &a [x, y]\n- *a\n", "&k a: *k", bomb(3, 3), bomb(10, 2), bomb(40, 1), "[%s]" % ("a, " * 500)):
        size = size_of(yaml.compose(text, pokhvizi.CSafeLoader), {})
        expect("as large as may be", bounded(base, text, yaml.compose_all, max_expanded=size), 1)
        expect("larger than may be", bounded(base, text, yaml.compose_all, max_expanded=size - 1),
               "ComposerError: " + many)
    expect("each document has the bound", bounded(base, "[a]\n--- [b]\n", yaml.compose_all, max_expanded=2), 2)
    expect("events of none", events_to(base, "[a, b]", max_expanded=0), ("ParserError: " + many, 0))
    expect("at an alias", place_of_error(base, "- &a [x, y]\n- *a\n", max_expanded=6), (1, 2, many))
    expect("at a node", place_of_error(base, "- &a [x, y]\n- *a\n", max_expanded=3), (0, 9, many))
    expect("within itself", place_of_error(base, "- &a [x, *a]", max_expanded=100),
           (0, 9, "found an alias within the node that it names"))
    expect("within itself, if there is no bound", place_of_error(base, "- &a [x, *a]"), None)
    begun = time.process_time()
    expect("a bomb of ten levels of ten", place_of_error(base, bomb(10, 10), max_expanded=1000000), (5, 44, many))
    expect("its time, which is less than 10 ms", time.process_time() - begun < .1, True)


# ---- Loaders that are called while they are at work ----

def in_thread(act):
    found = []
    thread = threading.Thread(target=lambda: found.append(said(act)))
    thread.start()
    thread.join()
    return found[0]


def within_itself():
    class Resolves(pokhvizi.CSafeLoader):
        def resolve(self, kind, value, implicit):
            calls = self.get_event, self.check_node, self.get_node, self.get_single_node, self.get_token, self.peek_event
            self.said = {said(call) for call in calls} | {said(lambda: self.__init__("x"))}
            return super().resolve(kind, value, implicit)

    loader = Resolves("[a, b]")
    expect("a value of a loader that calls itself", loader.get_data(), ["a", "b"])
    expect("calls from within `resolve`", loader.said, {IN_USE})

    class Asked:
        said = []

        @property
        def read(self):
            self.said.append(said(self.loader.get_event))
            return lambda _: b""

        @property
        def name(self):
            self.said.append(said(self.loader.peek_token))
            return "name"

    stream = Asked()
    stream.loader = pokhvizi.CSafeLoader.__new__(pokhvizi.CSafeLoader)
    stream.loader.__init__(stream)
    expect("calls from within `__init__`", set(stream.said), {IN_USE})


def within_read():
    class Reads:
        def __init__(self):
            self.given, self.said = ["- a\n"] * 9 + [""], set()

        def read(self, _):
            if len(self.given) < 5:  # a loader in Python takes pieces in its `__init__`
                calls = [self.loader.get_event, lambda: in_thread(self.loader.get_event)]
                if isinstance(self.loader, pokhvizi.CParser):
                    calls.append(lambda: self.loader.__init__("x"))
                self.said |= set(map(said, calls))
            return self.given.pop(0) if self.given else ""

    for base in pokhvizi.CSafeLoader, pokhvizi.SafeLoader:
        stream = Reads()
        stream.loader = base.__new__(base)
        stream.loader.__init__(stream)
        expect("a value of a stream that calls its loader", said(stream.loader.get_data), ["a"] * 9)
        expect("calls from within `read`, by it and by a thread", stream.said, {IN_USE})


def failures():
    """What ends the steps of a loader in Python, and what later calls say."""
    class Reads:
        def __init__(self):
            self.given = iter(["- a\n", "- b\n"])

        def read(self, _):
            return next(self.given)

    for base in yaml.SafeLoader, pokhvizi.SafeLoader, pokhvizi.CSafeLoader:
        expect("a read that raises StopIteration", said(lambda: yaml.compose(Reads(), base)), "StopIteration: ")
    loader = pokhvizi.SafeLoader("- a\n- b\n")
    loader.get_event()
    loader.events.close()  # as by an interrupt, before the failure is kept
    expect("a failure that wasn't kept", said(loader.get_event), "YAMLError: an earlier call of this loader failed")
    loader.dispose()
    expect("after dispose", said(loader.get_event), None)
    levels = [said(lambda: yaml.compose("[" * depth + "!!str x" + "]" * depth, pokhvizi.SafeLoader)) for depth in range(470, 500)]
    expect("the end of Python's stack", {word.partition(":")[0] for word in levels if isinstance(word, str)}, {"RecursionError"})


def by_threads():
    """Four threads at once that ask one loader for its events: each call has an event, or is refused."""
    heard, interval = set(), sys.getswitchinterval()

    def ask(loader, begin):
        begin.wait()
        event = IN_USE
        while event == IN_USE or isinstance(event, yaml.Event):
            event = said(loader.get_event)
            heard.add(event if isinstance(event, str) else type(event))

    sys.setswitchinterval(1e-6)
    for base in (pokhvizi.CSafeLoader, pokhvizi.SafeLoader) * 50:
        words = base("- a\n- [b, {c: d}]\n" * 3), threading.Barrier(4)
        threads = [threading.Thread(target=ask, args=words) for _ in range(4)]
        for thread in threads:
            thread.start()
        for thread in threads:
            thread.join()
    sys.setswitchinterval(interval)
    expect("calls by threads", {word for word in heard if isinstance(word, str)} - {IN_USE}, set())


def finalizers():
    class Last:
        def __init__(self, loader):
            self.loader, self.given = loader, [b"- a\n", b""]

        def read(self, _):
            return self.given.pop(0)

        def __del__(self):
            log.append(said(lambda: self.loader.__init__("from __del__")))

    log = []
    loader = pokhvizi.CSafeLoader("x")
    loader.__init__(Last(loader))
    said(lambda: loader.__init__("outer"))
    expect("a stream's __del__ that begins another", [log, said(loader.get_data)], [[None], "from __del__"])


# ---- Interrupts and threads, while a document is composed ----

def interrupts():
    """For the text, of which no document ends, the scanner alone takes seconds."""
    class Interrupt(Exception):
        pass

    def interrupt(*_):
        raise Interrupt

    def late(loader):
        old = signal.signal(signal.SIGPROF, interrupt)
        begun = time.process_time()
        signal.setitimer(signal.ITIMER_PROF, .2)
        expect("an interrupt", said(loader.get_node), "Interrupt: ")
        signal.setitimer(signal.ITIMER_PROF, 0)
        signal.signal(signal.SIGPROF, old)
        expect("the time until it", time.process_time() - begun < 1, True)

    late(pokhvizi.CSafeLoader("[" * 20000))
    # The rest of a document of which events were read is passed over: no node is made.
    loader = pokhvizi.CSafeLoader("[" * 20000 + "&a x" + ", *a" * 20000)
    for _ in range(20002):
        loader.get_event()
    late(loader)


def other_threads():
    turns, over = [], threading.Event()

    def run():
        while not over.wait(.001):
            turns.append(True)

    thread = threading.Thread(target=run)
    thread.start()
    said(lambda: yaml.compose("[" * 10000, pokhvizi.CSafeLoader))
    expect("turns of another thread", len(turns) > 5, True)
    over.set()
    thread.join()


# ---- Errors ----

def errors():
    class Raises(pokhvizi.CSafeLoader):
        def resolve(self, kind, value, implicit):
            raise KeyError(value)

    failed = "YAMLError: an earlier call of this loader failed"
    loader = Raises("a")
    expect("an error of `resolve`", [said(loader.get_data), said(loader.get_data)], ["KeyError: 'a'", failed])
    loader = pokhvizi.CSafeLoader("[*a]")
    expect("a fault", [said(loader.get_data), said(loader.check_event)], ["ComposerError: found undefined alias"] * 2)
    for text in "b: !%ED%A0%80 ?", "[!%ED%A0%80 }", "!%ED%A0%80 !b", "[&a b, &a !%ED%A0%80 c]", "- !a b\n- !%ED%A0%80 c\n":
        for act in yaml.parse, yaml.compose_all:
            expect("a tag that is no text, %r" % text, *(bounded(base, text, act) for base in (pokhvizi.CSafeLoader, yaml.CSafeLoader)))
    for given, wanted in ((3, "TypeError: a string value is expected"), (bytearray(b"a"), "TypeError: a string value is expected"),
                          ("\ud800", "UnicodeEncodeError: 'utf-8' codec can't encode character '\\ud800' in position 0: "
                                     "surrogates not allowed")):
        stream = type("Stream", (), {"read": lambda self, _, given=given: given})()
        loader = pokhvizi.CSafeLoader(stream)
        expect("a `read` that gives %r" % (given,), [said(loader.get_data), said(loader.get_event)], [wanted, failed])
    for stream in (3, None, bytearray(b"a")):
        expect("no stream", said(lambda: pokhvizi.CParser(stream)), "TypeError: a string or stream input is required")
    expect("a method that isn't", said(pokhvizi.CParser("a").get_node),
           "AttributeError: 'pokhvizi._yaml.CParser' object has no attribute 'resolve'")
    for base in (pokhvizi.CSafeLoader, pokhvizi.CParser, pokhvizi.SafeLoader):
        for name in ("max_depht", "unique_key"):
            expect("a bound that is misspelt", said(lambda: type("Loader", (base,), {name: 1})),
                   "TypeError: Loader.%s is no bound of a loader; the bounds are max_depth, max_nodes, max_expanded, and unique_keys" % name)
        expect("bounds", said(lambda: type("Loader", (base,), {"max_depth": 1, "unique_keys": True, "maximum": 1}).max_depth), 1)
    expect("the names of the package", [name for name in dir(pokhvizi) if not name.startswith("__") and name not in pokhvizi.__all__], [])
    expect("no __init__", said(pokhvizi.CParser.__new__(pokhvizi.CParser).get_event), "ValueError: the loader has no stream")


def again_and_again():
    loader = pokhvizi.SafeLoader("[a, b}")
    depths = set()
    for _ in range(50):
        try:
            loader.get_event() and loader.get_single_node()
        except yaml.YAMLError as failure:
            trace, depth = failure.__traceback__, 0
            while trace is not None:
                trace, depth = trace.tb_next, depth + 1
            depths.add(depth)
    expect("a traceback that doesn't grow", len(depths) < 4, True)


# ---- Tokens, events and nodes in any order ----

def told(thing):
    if isinstance(thing, yaml.Node):
        return type(thing).__name__
    return [type(thing).__name__, getattr(thing, "value", None), getattr(thing, "anchor", None)]


def in_order(base, text, calls):
    parser = type("Loader", (base, yaml.resolver.Resolver), {})(text)
    yaml.resolver.Resolver.__init__(parser)
    return [said(lambda: told(getattr(parser, call)())) for call in calls]


def mixed():
    refused = "RuntimeError: a token is asked for where a document comes next"
    for text, events in (("- &a x\n- *a\n", 4), ("- &a x\n- b\n", 4), ("a", 2), ("[a, b]", 3), ("%TAG !e! f\n--- !e!g h\n", 1)):
        for last in ("get_event", "peek_event", "check_event", "get_node", "get_token"):
            calls = ["get_event"] * events + ["check_node", "get_token", last]
            expect("a token behind check_node, %r" % text, in_order(pokhvizi.CParser, text, calls)[-2], refused)
    for text, events in (("a", 2), ("'b'", 2), ("*a", 2), ("--- >\n c\n", 2), ("", 5), ("a", 9)):
        calls = ["get_event"] * events + ["get_token"]
        expect("a token behind events, %r" % text, *(in_order(base, text, calls)[-1] for base in (pokhvizi.CParser, yaml.cyaml.CParser)))
        calls = ["get_token"] * 9 + ["peek_event", "check_event", "check_node"]
        expect("events behind the last token, %r" % text, *(in_order(base, text, calls) for base in (pokhvizi.CParser, yaml.cyaml.CParser)))
    # Any other order: each text that comes is one that stands there.
    drawn, calls = random.Random(7), ["%s_%s" % (how, what) for what in ("token", "event", "node") for how in ("get", "check", "peek")]
    calls = calls[:-1] + ["get_single_node"]
    values = {None, "aa", "bb", "t:c", "dd", "utf-8"}
    for text in ("- &aa !e!c bb\n- *aa\n", "k: 'bb'\n", "%TAG !e! t:\n--- !e!c &aa dd\n...\nbb\n", "? [aa, *bb]\n"):
        for _ in range(200):
            made = in_order(pokhvizi.CParser, text, drawn.choices(calls, k=12))
            texts = {part for thing in made if isinstance(thing, list) for part in thing[1:] if isinstance(part, str)}
            if not texts - {"k"} <= values:
                expect("calls in any order, %r" % text, texts, values)
    expect("calls in any order", True, True)


# ---- Tag directives ----

def drawn_directives():
    """Streams of drawn directives and tags, beside what the library says of all handles at once; and the time of many."""
    library, drawn, wrong_ones, faults = pokhvizi.Library.get(), random.Random(3), 0, 0

    def handle():
        return drawn.choice(["!", "!!"] + ["!%s%d!" % (drawn.choice("abc"), drawn.randrange(drawn.choice([6, 60])))] * 8)

    def facts(handles, tags):
        texts = [(name.encode(), b"t%d:" % place) for place, name in enumerate(handles)]
        ends = [0]
        for pair in texts:
            ends += ends[-1] + len(pair[0]), ends[-1] + len(pair[0] + pair[1])
        places = list(zip(ends, (len(text) for pair in texts for text in pair)))
        records = b"".join(struct.pack("=2Q", *place) for place in places)
        joined = b"".join(first + second for first, second in texts)
        for count, (name, _) in enumerate(texts):
            if library.directive_fact(records, count, joined, len(joined), name, len(name)):
                return "found duplicate %TAG directive"
        said = []
        for name in tags:
            size, out = ctypes.c_size_t(), ctypes.create_string_buffer(64)
            if library.tag(records, len(texts), joined, len(joined), name.encode(), len(name), b"s", 1, out, 64, size) == 4:
                return "found undefined tag handle"
            said.append(out.raw[:size.value].decode())
        return said

    def heard(text, loader):
        try:
            return [event.tag for event in yaml.parse(text, loader) if isinstance(event, yaml.ScalarEvent)]
        except yaml.YAMLError as failure:
            return "found undefined tag handle" if "undefined" in failure.problem else "found duplicate %TAG directive"

    for number in range(600):
        handles = [handle() for _ in range(drawn.randrange(40 if number % 4 == 0 else 5))]
        handles = handles if drawn.random() < 0.3 else list(dict.fromkeys(handles))
        tags = [drawn.choice(handles) if handles and drawn.random() < 0.95 else handle() for _ in range(drawn.randrange(1, 12))]
        text = "".join("%%TAG %s t%d:\n" % (name, place) for place, name in enumerate(handles))
        text += "---\n" + "".join("- %ss x\n" % name for name in tags)
        wanted = facts(handles, tags)
        faults += isinstance(wanted, str)
        wrong_ones += any(heard(text, loader) != wanted for loader in (pokhvizi.CLoader, pokhvizi.Loader))
    expect("drawn directives", wrong_ones, 0)
    expect("errors of drawn directives", 60 < faults < 540, True)

    def least(count):
        text = "".join("%%TAG !h%d! tag:x\n" % i for i in range(count)) + "--- [" + "".join("!h%d!a b, " % i for i in range(count)) + "]\n"
        times = []
        for _ in range(3):
            begun = time.process_time()
            yaml.compose(text, Loader=pokhvizi.CBaseLoader)
            times.append(time.process_time() - begun)
        return min(times)

    few = least(4000)
    many = least(32000)
    expect("eight times the directives, of %.3f s" % few, many < 24 * few or many, True)


# ---- Other interpreters, and no extension ----

ALL_READ = """
import yaml, pokhvizi
words = ""
try:
    from pokhvizi import CSafeLoader
except ImportError as error:
    words = str(error)
loaded = yaml.load("a: [1, 2]", Loader=pokhvizi.SafeLoader)
"""


def second_interpreter():
    try:
        import _xxsubinterpreters as interpreters
        words = {"isolated": False} if sys.version_info >= (3, 10) else {}
    except ImportError:
        import _interpreters as interpreters
        words = {"config": "legacy"}
    out = tempfile.NamedTemporaryFile()
    begun = interpreters.create(**words)
    try:
        interpreters.run_string(begun, "import sys\nsys.path[:0] = %r\n%s\nopen(%r, 'w').write(repr((loaded, words)))"
                                % (sys.path, ALL_READ, out.name))
    finally:
        interpreters.destroy(begun)
    loaded, words = eval(open(out.name).read())
    expect("a second interpreter's loaders in Python", loaded, {"a": [1, 2]})
    expect("its loaders in C are refused in words", words[:25] + words[-51:],
           "pokhvizi.CSafeLoader need" + "a wheel that has it, or use pokhvizi.SafeLoader or Loader"[-51:])
    expect("the first one's after it", yaml.load("a: [1, 2]", Loader=pokhvizi.CSafeLoader), {"a": [1, 2]})
    kept = sys.modules.pop("pokhvizi._yaml")
    import pokhvizi._yaml as again
    expect("the module imported again", again is kept, True)


def no_extension():
    with tempfile.TemporaryDirectory() as folder:
        os.mkdir(folder + "/pokhvizi")
        for name in ("__init__.py", "cyaml.py", "_known.py"):
            os.symlink(os.path.join(os.path.dirname(pokhvizi.__file__), name), "%s/pokhvizi/%s" % (folder, name))
        path = os.pathsep.join([folder, os.environ.get("PYTHONPATH", "")])
        run = subprocess.run([sys.executable, "-c", ALL_READ + "print(loaded, words)"], env=dict(os.environ, PYTHONPATH=path),
                             stdout=subprocess.PIPE, universal_newlines=True)
    expect("without the extension", run.stdout[:71],
           "{'a': [1, 2]} pokhvizi.CSafeLoader needs the extension pokhvizi._yaml, ")
    expect("what to do then", run.stdout[-58:], "a wheel that has it, or use pokhvizi.SafeLoader or Loader\n")
    expect("a name that isn't", said(lambda: pokhvizi.nothing)[:16], "AttributeError: ")


# ---- Hooks, against PyYAML's ----

def hooks():
    def places(base):
        class Follows(base):
            def descend_resolver(self, node, index):
                log.append((node and node.tag, index.value if isinstance(index, yaml.Node) else index))
                return super().descend_resolver(node, index)

            def ascend_resolver(self):
                log.append("up")
                return super().ascend_resolver()

        log = []
        yaml.compose("{key: [a, &b b, *b], c: d}", Loader=Follows)
        return log

    def paths(base):
        class Finds(base):
            pass

        Finds.add_path_resolver("!root", [])
        Finds.add_path_resolver("!key", ["key", None], str)
        Finds.add_path_resolver("!third", ["list", 2], str)
        return str(yaml.compose("{key: [a, b], list: [1, 2, three, &x {s: 3}, *x]}", Loader=Finds))

    expect("resolvers of places", places(pokhvizi.CSafeLoader), places(yaml.CSafeLoader))
    expect("resolvers of paths", paths(pokhvizi.CSafeLoader).replace("pokhvizi._yaml", "yaml._yaml"), paths(yaml.CSafeLoader))


def marks():
    node = yaml.compose("&a [b, *a]", Loader=pokhvizi.CLoader)
    for how, again in (("pickled", pickle.loads(pickle.dumps(node))), ("copied", copy.deepcopy(node))):
        expect("a node that is " + how, (again.end_mark.column, str(again.start_mark), again.value[1] is again),
               (10, '  in "<unicode string>", line 1, column 1', True))
    kind = type(node.start_mark)
    expect("no mark", "missing required argument 'index' (pos 2)" in said(lambda: kind("name")), True)
    for number in -1, 1 << 64:
        expect("a line that is %d" % number, str(said(lambda: kind("name", 0, number, 0)))[:14], "OverflowError:")
    named = Stream()
    named.mark, it = kind(named, 0, 0, 0), weakref.ref(named)
    del named
    gc.collect()
    expect("what a mark's name refers to", it(), None)
    expect("marks stay", said(lambda: setattr(node.start_mark, "line", 3)), "AttributeError: readonly attribute")


def signatures():
    for name, wanted in ("get_event", "(self, /)"), ("check_event", "(self, /, *choices)"), ("get_single_node", "(self, /)"):
        expect("what `help` says of " + name, said(lambda: str(inspect.signature(getattr(pokhvizi.CParser, name)))), wanted)


# ---- What is left behind ----

class Stream:
    given = ["key: &anchor [value, *anchor]\n", "other: [", ""]

    def read(self, _):
        self.given = self.given[1:]
        return self.given[0]


class Named(Stream):
    """Its name is an object that refers to the loader, and a mark has the name."""
    name = property(lambda self: self)


class Text(str):
    def __str__(self):
        return self


class Titled(Stream):
    """Its name is a text of another class, which refers to the loader."""

    def __init__(self):
        self.name = Text("title")
        self.name.stream = self


def once():
    class Mine(pokhvizi.CSafeLoader):  # a class that goes as well
        pass

    stream = random.choice((Stream, Named, Titled))()
    stream.loader = Mine(stream)
    stream.loader.me = stream.loader
    said(stream.loader.peek_event)
    said(stream.loader.get_data)
    # Python keeps texts of one letter by itself, so none of these has one.
    for text in ("key: &anchor [value, *anchor]", "[*other]", "key: value: third", "&first [&first value]",
                 "%TAG !e! tag:\n---\n!e!tagged value"):
        for act in (lambda: list(yaml.parse(text, pokhvizi.CLoader)), lambda: yaml.compose(text, pokhvizi.CLoader),
                    lambda: pokhvizi.CParser(text).peek_token(), lambda: pokhvizi.CParser(text).check_event()):
            said(act)
    return weakref.ref(stream.loader), weakref.ref(Mine)


def resident():
    with open("/proc/self/statm") as file:
        return int(file.read().split()[1]) * 4


def leaks():
    def rounds(count):
        found = [once() for _ in range(count)]
        gc.collect()
        gc.collect()
        return sum(it() is not None for pair in found for it in pair[:1 if sys.version_info < (3, 9) else 2])

    expect("cycles are collected", sum(rounds(50) for _ in range(20)), 0)
    before, blocks = resident(), sys.getallocatedblocks()
    for _ in range(20):
        rounds(50)
    expect("blocks of Python's after 1000 rounds of loads", max(sys.getallocatedblocks() - blocks, 300), 300)
    expect("KB after them, beside %d" % before, max(resident() - before, 500), 500)


for part in (deep, bounds, expanded, within_itself, within_read, failures, by_threads, finalizers, interrupts, other_threads, errors,
             again_and_again, mixed, drawn_directives, second_interpreter, no_extension, hooks, marks, signatures, leaks):
    part()
print("%d cases, %d levels, %d wrong" % (cases, LEVELS, wrong))
sys.exit(wrong != 0)
