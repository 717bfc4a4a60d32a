"""PyYAML's loaders over this parser.

    import yaml
    from pokhvizi import SafeLoader

    yaml.load(text, Loader=SafeLoader)    # also yaml.parse, yaml.compose and all that take a loader

Scanner, composer, resolver and constructor are PyYAML's (Debian: python3-yaml), and so are the events, nodes, marks and
errors: an error has the text and the snippet of PyYAML without its C part. For another loader of that form, put `Parser`
first: `class Mine(Parser, yaml.FullLoader): pass`. The library is libpokhvizi.so in this package, or without it
libpokhvizi.so.1 where the system looks for libraries; the environment's POKHVIZI_LIBRARY or `use_library(PATH)` names
another.

Each event takes as many tokens of the scanner as PyYAML's parser takes. These differ from that parser:

- Texts that PyYAML refuses and YAML 1.1 allows are read: `[ ? ]`, a value without a key in a block mapping (`: x`), and a
  document after `...` without `---`.
- Like with libyaml, a collection whose tag is `!` alone is not implicit, an empty node with that tag is a string, and versions
  other than 1.1 and 1.2 are refused. An empty key or value in a flow collection has its marks at the next token. Of a node with an
  anchor and a tag whose handle isn't declared, the next token is taken before that error, and may be the scanner's error.

A loader is for one thread; several loaders may be used at once. An error is raised again by each later call for an event.

`max_depth` of a loader's class bounds the collections that are open at once, `max_nodes` the nodes of a document and the items or
pairs of a node, and `max_expanded` the nodes of a document with its aliases written out; None, the default, is no bound. With
`unique_keys = True` a key that its mapping has is a `ComposerError`: a scalar with the same tag and text, or the same node. Another
attribute of the class that begins with `max_` or `unique_` is a `TypeError`, since it may be a bound that is misspelt.

A `ParserError` has `expected`, a tuple that says what could have stood in the place of the token, such as `("','", "']'")`. It is empty
if the token's kind was right. It and a `ComposerError` have `name`, the anchor, alias or tag handle that the error is about, or None.

`CSafeLoader` and the others of `pokhvizi.cyaml` are PyYAML's loaders in C, over an extension that is in the wheels.
"""
import contextlib
import ctypes
import functools
import itertools
import os
import re
import struct
import sys

import yaml

from ._known import refuse_others

__all__ = ["LibraryError", "Loader", "Parser", "SafeLoader", "use_library"]

__version__ = "0.4.0"


# ---- The library ----

class LibraryError(Exception):
    """The library isn't there, or is another."""


class Library:
    """libpokhvizi.so, as pokhvizi/steps.h declares it."""

    NAMES = (
        "pokhvizi_steps_new", "pokhvizi_step", "pokhvizi_expected", "pokhvizi_tag", "pokhvizi_directive_fact", "pokhvizi_version_fact",
    )
    PLACE = os.path.join(os.path.dirname(os.path.realpath(__file__)), "libpokhvizi.so")
    used = None

    def __init__(self, path):
        address, size, byte = ctypes.c_void_p, ctypes.c_size_t, ctypes.c_uint8
        array, text = (address, size), (ctypes.c_char_p, size)
        try:
            library = ctypes.CDLL(path)
            functions = [library[name] for name in self.NAMES]
            self.new, self.step, self.expected, self.tag, self.directive_fact, self.version_fact = functions
        except (OSError, AttributeError) as error:
            raise LibraryError("cannot use %s: %s; POKHVIZI_LIBRARY may name the library" % (path, error)) from None
        # The step has no argtypes: its arguments are made once, and are not converted at each call.
        self.expected.argtypes, self.expected.restype = (address, *array), ctypes.c_uint32
        self.tag.argtypes = array * 2 + text * 2 + (address, size, ctypes.POINTER(size))
        self.directive_fact.argtypes = array * 2 + text
        self.version_fact.argtypes = ctypes.c_int32, ctypes.c_int32
        self.tag.restype = self.directive_fact.restype = self.version_fact.restype = byte

    @classmethod
    def get(cls):
        """Returns the library, which the first use opens."""
        if cls.used is None:
            there = cls.PLACE if os.path.exists(cls.PLACE) else "libpokhvizi.so.1"
            cls.used = cls(os.environ.get("POKHVIZI_LIBRARY") or there)
        return cls.used


def use_library(path):
    """Takes the library at a path from now on."""
    Library.used = Library(path)


def pointer(buffer):
    """Returns the address of a buffer, which the caller keeps."""
    return ctypes.c_void_p(ctypes.addressof(ctypes.c_char.from_buffer(buffer)))


def bound_of(loader, name, most):
    """Returns the loader's bound of this name, or `most` if it is None or a larger number."""
    bound = getattr(loader, name, None)
    if bound is not None and (not isinstance(bound, int) or isinstance(bound, bool) or bound < 0):
        raise ValueError("%s has to be None or a whole number from 0 on, and is %r" % (name, bound))
    return most if bound is None else min(bound, most)


def parser_error(context, context_mark, problem, problem_mark, expected=(), name=None):
    """Returns an error of a parser; what was expected are the words of these."""
    error = yaml.parser.ParserError(context, context_mark, problem, problem_mark)
    error.expected, error.name = expected, name
    return error


def composer_error(context, context_mark, problem, problem_mark, name=None):
    """Returns an error of a composer."""
    error = yaml.composer.ComposerError(context, context_mark, problem, problem_mark)
    error.name = name
    return error


NAMED = re.compile("found (?:undefined alias|duplicate anchor) '(.*?)'")  # as PyYAML's composer says it


@contextlib.contextmanager
def naming():
    """Has the errors of PyYAML's composer tell the anchor or the alias that they are about."""
    try:
        yield
    except yaml.composer.ComposerError as error:
        if not hasattr(error, "name"):
            found = NAMED.match(str(error.context or error.problem))
            error.name = found and found[1]
        raise


def expected_words(expected):
    """Returns the words of each kind of token in a set of pokhvizi_expected, as pokhvizi/steps.h has them."""
    told = []
    if expected & FLOW_NODE == FLOW_NODE:
        told.append("a node" if expected & BLOCK_NODE == BLOCK_NODE else "a flow node")
        expected &= ~(FLOW_NODE | BLOCK_NODE)
    ends = "the end of the block mapping" if expected >> 16 & 1 else "the end of the block sequence"
    return (*told, *(WORDS[kind] or ends for kind in WORDS if expected >> kind & 1))


# By their kinds; what a block ends with depends on the others.
WORDS = {
    1: "the start of the stream", 21: "a scalar", 18: "an alias", 19: "an anchor", 20: "a tag", 10: "'['", 12: "'{'",
    7: "a block sequence", 8: "a block mapping", 14: "'-'", 16: "a key", 17: "a value", 15: "','", 11: "']'", 13: "'}'", 9: None,
    3: "%YAML", 4: "%TAG", 5: "'---'", 6: "'...'", 2: "the end of the stream",
}
FLOW_NODE = sum(1 << kind for kind in (10, 12, 18, 19, 20, 21))
BLOCK_NODE = 1 << 7 | 1 << 8


# ---- Tag directives ----

class Directives:
    """The tag directives of a document. The library looks at each that it is shown, so it is shown the one that a handle names."""

    HANDLE = struct.Struct("=4Q")
    DEFAULT = len("tag:yaml.org,2002:")  # the longest prefix that needs no directive
    UNDECLARED = (1 << 64) - 1

    def __init__(self, library):
        self.library, self.size = library, ctypes.c_size_t()
        self.forget()

    def forget(self):
        self.tags = {}

    def record(self, handle):
        """Returns the handles that the library is shown and their texts, each with its length, and how long a prefix may be."""
        if handle not in self.tags:
            return b"", 0, b"", 0, self.DEFAULT
        handle, prefix = handle.encode(), self.tags[handle].encode()
        place, length = len(handle), len(prefix)
        return self.HANDLE.pack(0, place, place, length), 1, handle + prefix, place + length, max(length, self.DEFAULT)

    def fact(self, handle):
        """Returns the fact of a directive: whether its handle has been declared."""
        *record, _ = self.record(handle)
        handle = handle.encode()
        return self.library.directive_fact(*record, handle, len(handle))

    def declare(self, handle, prefix):
        self.tags[handle] = prefix

    def tag(self, handle, suffix):
        """Returns the fact of a tag, and the tag in full, or None where its handle isn't declared."""
        handle, suffix = handle or "", suffix.encode()
        *record, longest = self.record(handle)
        handle, room = handle.encode(), longest + len(suffix)
        out = ctypes.create_string_buffer(room)
        fact = self.library.tag(*record, handle, len(handle), suffix, len(suffix), out, room, self.size)
        length = self.size.value
        return fact, None if length == self.UNDECLARED else out.raw[:length].decode()


# ---- Steps ----

class Marks:
    """The marks of the tokens that may still stand in an event, by the numbers that the steps have in their place."""

    FEW = 512

    def __init__(self):
        self.all, self.few = [], self.FEW

    def put(self, token):
        """Adds the marks of a token, and returns their numbers."""
        number = len(self.all)
        self.all += token.start_mark, token.end_mark
        return number, number + 1

    def keep(self, numbers):
        """Keeps these marks alone, whose numbers are then 0, 1 and so on."""
        self.all = [self.all[number] for number in numbers]
        self.few = self.FEW + 2 * len(self.all)


class Open:
    """A collection that is open: the cell of its size, how many nodes there were before it, and the parts of its entries."""

    def __init__(self, cell, before, is_mapping):
        self.cell, self.before, self.is_mapping, self.parts = cell, before, is_mapping, 0

    def put(self, most):
        """Adds an item, a key or a value; returns whether there may be so many entries."""
        self.parts += 1
        return (self.parts + self.is_mapping) // (1 + self.is_mapping) <= most


class Count:
    """What the events of a document are counted by within bounds on nodes. Other errors of composers are the caller's: an anchor names
    its last node, and an alias without one is an entry of its list alone."""

    def __init__(self, most, expanded):
        self.most, self.expanded = most, expanded
        self.begin_document()

    def begin_document(self):
        self.left, self.total, self.cells, self.open = self.most, 0, {}, []

    def take(self, event):
        """Takes an event, unless the document would then be larger than it may."""
        if isinstance(event, yaml.DocumentStartEvent):
            self.begin_document()
        elif isinstance(event, yaml.CollectionEndEvent):
            if self.open:  # else a composer began it, and was left by an error of others
                ended = self.open.pop()
                ended.cell[0] = self.total - ended.before
        elif isinstance(event, yaml.NodeEvent):
            is_alias = isinstance(event, yaml.AliasEvent)
            self.left -= not is_alias
            if self.left < 0 or self.open and not self.open[-1].put(self.most):
                self.refuse("found too many nodes", event)
            if is_alias:
                self.add(self.cells.get(event.anchor, [0])[0], event)
            else:
                self.add(1, event)
                self.begin_node(event)

    def begin_node(self, event):
        """Begins a node, whose size isn't known if it is a collection."""
        is_scalar = isinstance(event, yaml.ScalarEvent)
        cell = [1 if is_scalar else None]
        if event.anchor is not None:
            self.cells[event.anchor] = cell
        if not is_scalar:
            self.open.append(Open(cell, self.total - 1, isinstance(event, yaml.MappingStartEvent)))

    def add(self, size, event):
        """Adds so many nodes, if there is a bound with aliases written out."""
        if self.expanded == sys.maxsize:
            return
        if size is None:
            self.refuse("found an alias within the node that it names", event, event.anchor)
        if self.total + size > self.expanded:
            self.refuse("found too many nodes, with aliases written out", event)
        self.total += size

    @staticmethod
    def refuse(problem, event, name=None):
        raise parser_error(None, None, problem, event.start_mark, name=name)


def is_of_next(failure):
    """Returns whether `next` of the steps itself raised this, and none of their code."""
    return failure.__traceback__.tb_next is None


def failure_of(failure):
    """Returns what the steps failed by: a generator passes no StopIteration on, and ctypes tells the end of Python's stack as an
    error of an argument."""
    if is_of_next(failure) and isinstance(failure.__cause__, StopIteration):
        return failure.__cause__
    if type(failure) is ctypes.ArgumentError and "RecursionError" in str(failure):
        return RecursionError(str(failure))
    return failure


class Steps:
    """The events of a scanner's tokens."""

    KINDS = {
        yaml.StreamStartToken: 1, yaml.StreamEndToken: 2, yaml.DirectiveToken: 0, yaml.DocumentStartToken: 5,
        yaml.DocumentEndToken: 6, yaml.BlockSequenceStartToken: 7, yaml.BlockMappingStartToken: 8, yaml.BlockEndToken: 9,
        yaml.FlowSequenceStartToken: 10, yaml.FlowSequenceEndToken: 11, yaml.FlowMappingStartToken: 12,
        yaml.FlowMappingEndToken: 13, yaml.BlockEntryToken: 14, yaml.FlowEntryToken: 15, yaml.KeyToken: 16,
        yaml.ValueToken: 17, yaml.AliasToken: 18, yaml.AnchorToken: 19, yaml.TagToken: 20, yaml.ScalarToken: 21,
    }
    VERSION_DIRECTIVE, TAG_DIRECTIVE, ANCHOR, TAG, SCALAR = 3, 4, 19, 20, 21
    DIRECTIVES = {"YAML": VERSION_DIRECTIVE, "TAG": TAG_DIRECTIVE}
    HELD = VERSION_DIRECTIVE, TAG_DIRECTIVE, ANCHOR, TAG
    WANTS, GAVE, STAYS, FULL_STATES, FULL_MARKS, FAULT = range(6)
    RECORD, COUNTS = 136, struct.Struct("=16xQ")        # pokhvizi_steps_t, and its machine.marks_count
    EVENT = struct.Struct("=6B2xQ16xQ16x")              # pokhvizi_event_t, of a mark the index alone
    PROBLEM = struct.Struct("=B7xQ16xQ16x")             # pokhvizi_fault_t
    FEW, MOST = 64, (1 << 31) - 1
    # What PyYAML says for each problem; `%r` is the token's id, or its handle.
    PROBLEMS = (
        (None, None),
        (None, "did not find expected <stream-start>"),
        (None, "expected '<document start>', but found %r"),
        (None, "found duplicate YAML directive"),
        (None, "found incompatible YAML document"),
        (None, "duplicate tag handle %r"),
        ("while parsing a block node", "expected the node content, but found %r"),
        ("while parsing a flow node", "expected the node content, but found %r"),
        ("while parsing a node", "found undefined tag handle %r"),
        ("while parsing a block collection", "expected <block end>, but found %r"),
        ("while parsing a block mapping", "expected <block end>, but found %r"),
        ("while parsing a flow sequence", "expected ',' or ']', but got %r"),
        ("while parsing a flow mapping", "expected ',' or '}', but got %r"),
    )
    OF_TEXTS = INCOMPATIBLE, DUPLICATE_HANDLE, UNDECLARED_HANDLE = 4, 5, 8  # no token's kind is wrong

    def __init__(self, scanner):
        self.scanner, self.library, self.marks = scanner, Library.get(), Marks()
        self.directives = Directives(self.library)
        self.max_depth = bound_of(scanner, "max_depth", sys.maxsize)
        self.count = Count(bound_of(scanner, "max_nodes", self.MOST), bound_of(scanner, "max_expanded", sys.maxsize))
        self.is_counted = self.count.most < self.MOST or self.count.expanded < sys.maxsize
        self.record, self.states = bytearray(self.RECORD), bytearray(self.FEW)
        self.mark_stack = memoryview(bytearray(24 * self.FEW)).cast("Q")
        self.at = memoryview(bytearray(48)).cast("Q")   # pokhvizi_span_t
        self.event, self.fault = bytearray(self.EVENT.size), bytearray(self.EVENT.size)
        self.words = self.arguments()
        self.library.new(self.words[0])
        self.token, self.has_ended = None, False
        self.let_go()

    def let_go(self):
        """Forgets what was held for an event."""
        self.anchor = self.tag = self.tag_token = self.version = None
        self.holds = False

    def arguments(self):
        """Returns the arguments of a step before the token's kind and after its fact."""
        states_room = ctypes.c_size_t(len(self.states))
        marks_room = ctypes.c_size_t(min(len(self.mark_stack) // 3, self.max_depth))
        record, states, marks = map(pointer, (self.record, self.states, self.mark_stack))
        return (record, states, states_room, marks, marks_room, *map(pointer, (self.at, self.event, self.fault)))

    def __iter__(self):
        """Gives the events. Python refuses to go on with a generator that is at work, in `read` or in another thread."""
        step = self.library.step
        record, states, states_room, marks, marks_room, at, event, fault = self.words
        while not self.has_ended:
            if self.token is None:
                self.take()
            did = step(record, states, states_room, marks, marks_room, self.kind, self.fact, at, event, fault)
            if did == self.WANTS:
                if self.kind in self.HELD:
                    self.hold()
                self.token = None
            elif did == self.GAVE:
                token, self.token = self.token, None
                yield self.made(token)
                if len(self.marks.all) > self.marks.few:
                    self.forget_marks()
            elif did == self.STAYS:
                yield self.made(None)
            elif did == self.FAULT:
                raise self.error()
            else:
                self.grow(did)
                record, states, states_room, marks, marks_room, at, event, fault = self.words
        yield from itertools.repeat(None)  # so that only steps that have failed end

    def grow(self, did):
        """Makes the stack larger that was full."""
        if did == self.FULL_STATES:
            self.states = self.states + bytes(len(self.states))
        elif did == self.FULL_MARKS:
            if len(self.mark_stack) // 3 >= self.max_depth:
                raise parser_error(None, None, "found too many levels", self.token.start_mark)
            self.mark_stack = memoryview(bytearray(self.mark_stack) + bytes(self.mark_stack.nbytes)).cast("Q")
        else:
            raise RuntimeError("the stacks were overwritten")
        self.words = self.arguments()

    # Tokens

    def take(self):
        """Takes the scanner's next token in hand, with its kind, fact and marks."""
        self.token = token = self.scanner.get_token()
        self.before = bytes(self.record)
        # A directive that is neither YAML nor TAG stands where a tag directive may, and nothing of it is held.
        self.kind = self.KINDS[type(token)] or self.DIRECTIVES.get(token.name, self.TAG_DIRECTIVE)
        self.at[0], self.at[3] = self.marks.put(token)
        self.look()

    def look(self):
        """Finds the fact of the token in hand."""
        if self.kind == self.SCALAR:
            self.fact = self.token.plain
        else:
            self.fact = self.FACTS[self.kind](self, self.token) if self.kind in self.FACTS else 0

    def forget_marks(self):
        """Forgets marks but those of open collections: between two events, without a token in hand, the steps have no other."""
        count = 3 * self.COUNTS.unpack_from(self.record)[0]
        stack = self.mark_stack
        self.marks.keep(stack[0:count:3].tolist())
        for number, place in enumerate(range(0, count, 3)):
            stack[place] = number

    def version_fact(self, token):
        return self.library.version_fact(*(min(part, self.MOST) for part in token.value))

    def directive_fact(self, token):
        return token.name == "TAG" and self.directives.fact(token.value[0])

    def tag_fact(self, token):
        fact, self.tag_in_hand = self.directives.tag(*token.value)
        return fact

    FACTS = {VERSION_DIRECTIVE: version_fact, TAG_DIRECTIVE: directive_fact, TAG: tag_fact}

    def hold(self):
        """Holds what the token in hand has for an event that comes later."""
        token, kind = self.token, self.kind
        if kind == self.ANCHOR:
            self.anchor, self.holds = token.value, True
        elif kind == self.TAG:
            self.tag, self.tag_token, self.holds = self.tag_in_hand, token, True
        elif kind == self.VERSION_DIRECTIVE:
            self.version, self.holds = token.value, True
        elif token.name == "TAG":
            self.directives.declare(*token.value)

    # Events

    def made(self, token):
        """Returns the event that a step gave, of the token that ended with it, if any."""
        kind, has_anchor, has_tag, implicit, quoted_implicit, is_flow, start, end = self.EVENT.unpack_from(self.event)
        start, end = self.marks.all[start], self.marks.all[end]
        anchor, tag = self.anchor if has_anchor else None, self.tag if has_tag else None
        if kind == 6:
            value, style = (token.value, token.style) if token else ("", None)
            event = yaml.ScalarEvent(anchor, tag, (implicit == 1, quoted_implicit == 1), value, start, end, style=style)
        elif kind == 7:
            flow_style = is_flow == 1 if token else None  # None without an indent, as PyYAML's
            event = yaml.SequenceStartEvent(anchor, tag, implicit == 1, start, end, flow_style=flow_style)
        elif kind == 9:
            event = yaml.MappingStartEvent(anchor, tag, implicit == 1, start, end, flow_style=is_flow == 1)
        else:
            event = self.MAKERS[kind](self, token, not implicit, start, end)
        if self.holds:
            self.let_go()
        if self.is_counted and not self.scanner.is_composing:
            self.count.take(event)
        return event

    def stream_start(self, token, explicit, start, end):
        return yaml.StreamStartEvent(start, end, encoding=token.encoding)

    def stream_end(self, token, explicit, start, end):
        self.has_ended = True
        return yaml.StreamEndEvent(start, end)

    def document_start(self, token, explicit, start, end):
        tags = dict(self.directives.tags) or None
        return yaml.DocumentStartEvent(start, end, explicit=explicit, version=self.version, tags=tags)

    def document_end(self, token, explicit, start, end):
        self.directives.forget()
        if token is None:  # the token in hand isn't of this document
            self.look()
        return yaml.DocumentEndEvent(start, end, explicit=explicit)

    def alias(self, token, explicit, start, end):
        return yaml.AliasEvent(token.value, start, end)

    def sequence_end(self, token, explicit, start, end):
        return yaml.SequenceEndEvent(start, end)

    def mapping_end(self, token, explicit, start, end):
        return yaml.MappingEndEvent(start, end)

    MAKERS = {1: stream_start, 2: stream_end, 3: document_start, 4: document_end, 5: alias, 8: sequence_end, 10: mapping_end}

    def error(self):
        """Returns the error of the fault that a step put, in PyYAML's words."""
        number, context_mark, problem_mark = self.PROBLEM.unpack_from(self.fault)
        marks, token = self.marks.all, self.token
        context, problem = self.PROBLEMS[number]
        name = None
        if number in (self.UNDECLARED_HANDLE, self.DUPLICATE_HANDLE):
            name = (self.tag_token or token).value[0]
            problem %= name
        elif number == self.INCOMPATIBLE and token.value[0] != 1:
            problem += " (version 1.* is required)"
        elif "%r" in problem:
            problem %= token.id
        expected = () if number in self.OF_TEXTS else self.expected()
        return parser_error(context, marks[context_mark] if context else None, problem, marks[problem_mark], expected, name)

    def expected(self):
        """Returns what could have stood in the place of the token in hand: the steps haven't changed what that needs of the stack."""
        record = bytearray(self.before)
        return expected_words(self.library.expected(pointer(record), pointer(self.states), len(self.states)))


# ---- Loaders ----

class Expansion:
    """How many nodes a document has so far with its aliases written out."""

    def __init__(self, most):
        self.most, self.total, self.sizes = most, 0, {}  # the sizes are those of nodes that have ended, by their anchors

    def put(self, event):
        """Adds the node of an event, or the copy that an alias stands for."""
        if self.most == sys.maxsize:
            return
        is_alias = isinstance(event, yaml.AliasEvent)
        if is_alias and event.anchor not in self.sizes:
            problem = "found an alias within the node that it names"
            raise composer_error(None, None, problem, event.start_mark, event.anchor)
        total = self.total + (self.sizes[event.anchor] if is_alias else 1)
        if total > self.most:
            raise composer_error(None, None, "found too many nodes, with aliases written out", event.start_mark)
        self.total = total


class Parser:
    """This parser with the methods of `yaml.parser.Parser`, over the scanner of the same loader."""

    max_depth = max_nodes = max_expanded = None
    unique_keys = False
    current_event = None
    failure = None
    events = None
    is_composing = False

    def __init_subclass__(cls, **words):
        super().__init_subclass__(**words)
        refuse_others(cls)

    def check_event(self, *choices):
        """Returns whether there is a next event, of one of these kinds where some are named."""
        event = self.current_event or self.peek_event()
        return event is not None and (not choices or isinstance(event, choices))

    def peek_event(self):
        """Returns the next event and leaves it, or None after the last."""
        if self.current_event is None:
            self.current_event = self.next_event()
        return self.current_event

    def get_event(self):
        """Returns the next event, or None after the last."""
        event = self.peek_event()
        self.current_event = None
        return event

    def next_event(self):
        if self.failure is not None:
            raise self.failure.with_traceback(None)  # else its traceback would grow by each call
        try:
            if self.events is None:
                vars(self).setdefault("events", iter(Steps(self)))  # if two threads come here, both take the first one's
            return next(self.events)
        except StopIteration:  # an interrupt came before the failure of an earlier call was kept
            raise yaml.YAMLError("an earlier call of this loader failed") from None
        except BaseException as failure:
            if type(failure) is ValueError and is_of_next(failure):  # the steps are at work
                raise RuntimeError("the loader is in use") from None
            self.failure = failure_of(failure)
            if self.failure is failure:
                raise
            raise self.failure from None

    def get_single_node(self):
        """As PyYAML's."""
        with naming():
            return super().get_single_node()

    def compose_document(self):
        """As PyYAML's. Its composer calls itself, so nothing stands between its calls unless there is a bound, or keys have to
        differ."""
        with naming():
            return self.compose_whole()

    def compose_whole(self):
        if self.max_nodes is None and self.max_expanded is None and not self.unique_keys:
            return super().compose_document()
        self.keys = {}
        self.max_entries = self.nodes_left = bound_of(self, "max_nodes", (1 << 31) - 1)
        self.expansion = Expansion(bound_of(self, "max_expanded", sys.maxsize))
        kept = vars(self).get("compose_node")  # a method that was put on the loader
        bounded = self.compose_node = functools.partial(self.compose_bounded, self.compose_node)
        self.is_composing = True
        try:
            return super().compose_document()
        finally:
            self.is_composing = False
            if vars(self).get("compose_node") is bounded:  # else a hook has put another on the loader
                del self.compose_node
                if kept is not None:
                    self.compose_node = kept

    def compose_bounded(self, compose, parent, index):
        """Composes the next node, unless the document, or a list of it, would then be larger than it may."""
        event, before = self.peek_event(), self.expansion.total
        is_alias = isinstance(event, yaml.AliasEvent)
        is_known = event.anchor in self.anchors
        is_entry = parent is not None and not isinstance(index, yaml.Node)  # an item or a key, and no value
        # PyYAML's composer refuses an alias without an anchor, as in C before both bounds, and a second anchor, as in C between
        # them.
        if is_known or not is_alias:
            if is_entry and len(parent.value) >= self.max_entries or not is_alias and self.nodes_left == 0:
                raise composer_error(None, None, "found too many nodes", event.start_mark)
        if is_alias == is_known:
            self.expansion.put(event)
        self.nodes_left -= not is_alias
        node = compose(parent, index)
        if self.unique_keys and is_entry and isinstance(parent, yaml.MappingNode):
            self.put_key(self.keys.setdefault(id(parent), {}), node, event)
        if not is_alias and event.anchor is not None:
            self.expansion.sizes[event.anchor] = self.expansion.total - before
        return node

    @staticmethod
    def put_key(keys, node, event):
        """Adds a key to those of its mapping, unless it is there."""
        name = (node.tag, node.value) if isinstance(node, yaml.ScalarNode) else id(node)
        if name in keys:
            first = keys[name].start_mark
            raise composer_error("first occurrence", first, "found duplicate key", event.start_mark)
        keys[name] = node

    def dispose(self):
        """Gives back what the parser holds; it then has no further event."""
        self.events, self.failure = itertools.repeat(None), None


class Loader(Parser, yaml.Loader):
    """As `yaml.Loader`."""


class SafeLoader(Parser, yaml.SafeLoader):
    """As `yaml.SafeLoader`."""


# ---- Loaders in C ----

_IN_C = ["CBaseLoader", "CFullLoader", "CLoader", "CParser", "CSafeLoader", "CUnsafeLoader"]

try:
    from .cyaml import CBaseLoader, CFullLoader, CLoader, CParser, CSafeLoader, CUnsafeLoader
except ImportError as error:
    _LACKS = str(error)

    def __getattr__(name):
        if name in _IN_C:
            raise ImportError("pokhvizi.%s needs the extension pokhvizi._yaml, which this interpreter lacks (%s): install a wheel "
                              "that has it, or use pokhvizi.SafeLoader or Loader" % (name, _LACKS))
        raise AttributeError("module %r has no attribute %r" % (__name__, name))
else:
    __all__ += _IN_C


def __dir__():
    return sorted(__all__ + [name for name in globals() if name.startswith("__")])
