#!/usr/bin/env python3
"""YAML text to lines of tokens, events or nodes: by PyYAML's scanner, and then `yamltokens`."""
import sys

USAGE = """\
usage: yaml_lines.py tokens FILE
       yaml_lines.py events|nodes FILE [--program PATH]

Reads a YAML text through PyYAML's scanner (Debian: python3-yaml), libyaml's where PyYAML has its C part.
FILE - is standard input.

  tokens   writes the scanner's tokens, as lines that `yamltokens` reads
  events   writes the events
  nodes    writes each document, and then its nodes

Events and nodes are made by the program yamltokens, and are at most those of 1,000,000 tokens:

  --program PATH   where it is; without it, crates/yamltokens/out/yamltokens, target/release/yamltokens or else the
                   first in the path

A line of a token is 1,048,576 bytes at most, where each byte of a text that is no visible ASCII counts as three. Where
the YAML is beyond a limit, that is no fault of the YAML: the last line says `line too long` or `too many tokens`, and
the status is 3.

Where the YAML has a fault, the last lines are the fault and its context. The first fault of the scanner, its reader,
the parser and the composer counts. Marks are index, line and column in characters, from 0. Among tokens no fault
stands. It is told in words on standard error too, with line and column from 1.

exit status: 0 the text was read to its end, 1 it has a fault, 2 wrong words, 3 anything else (as a file that is not
there, output that failed, no PyYAML, out of memory, or a limit), 130 interrupted. Every status but 0 comes with one
line on standard error.
"""

if sys.version_info < (3, 8):
    sys.stderr.write("yaml_lines.py: needs Python 3.8 or later, and this is %d.%d\n" % sys.version_info[:2])
    sys.exit(3)

import itertools
import os
import re
import select
import subprocess

HERE = os.path.dirname(os.path.realpath(__file__))
ENCODINGS = {"utf-8": "utf8", "utf-16-le": "utf16le", "utf-16-be": "utf16be"}
STYLES = {None: " plain\n", "": " plain\n", "'": " single\n", '"': " double\n", "|": " literal\n", ">": " folded\n"}
SMALL = [str(number) for number in range(1000)]
TOKENS_AT_ONCE = 2048
BYTES_AT_ONCE = 1 << 16
LONGEST_FAULT = 4096
BUILT = ("crates/yamltokens/out/yamltokens", "target/release/yamltokens")
HOW_TO_BUILD = "(cd crates/yamltokens && rt run -- events) < examples/list.tokens; without the kit: cargo build -r"


class WrongWords(Exception):
    """The words of the command are not those of the usage."""


class Failure(Exception):
    """What keeps the program from its work, other than a fault in the YAML."""

    @classmethod
    def of(cls, doing, error):
        return cls("%s: %s" % (doing, error.strerror or error))


class Place:
    """Where a fault is: index, line and column in characters, from 0."""

    def __init__(self, index, line, column):
        self.index, self.line, self.column = index, line, column

    def __str__(self):
        return "line %d, column %d" % (self.line + 1, self.column + 1)

    def field(self):
        return "%d:%d:%d" % (self.index, self.line, self.column)


class Fault:
    """A fault in the YAML, or in the lines of its tokens."""

    LINES = re.compile(br"(?:\A|\n)FAULT (\w+) (\d+):(\d+):(\d+) ([^\n]*)\n"
                       br"(?:CONTEXT (\d+):(\d+):(\d+) ([^\n]*)\n)?\Z")
    # Faults of the lines: the mark counts tokens.
    OF_LINES = ("no more tokens", "too many tokens", "line too long", "bad token line", "read failed")
    # Those of them that a YAML text without a fault may have.
    LIMITS = ("too many tokens", "line too long")

    def __init__(self, kind, place, problem, context_place=None, context=None):
        self.kind, self.place, self.problem = kind, place, problem
        self.context_place, self.context = context_place, context

    @classmethod
    def at_end_of(cls, output):
        """Returns the fault that is the last of an output, and where its text begins."""
        found = cls.LINES.search(output)
        if not found:
            return None, len(output)
        kind, problem, context = (found[n] and found[n].decode() for n in (1, 5, 9))
        place = Place(*map(int, found.group(2, 3, 4)))
        context_place = Place(*map(int, found.group(6, 7, 8))) if context else None
        return cls(kind, place, problem, context_place, context), output.index(b"FAULT", found.start())

    def is_of_lines(self):
        return self.kind in ("reader", "scanner") and self.problem in self.OF_LINES

    def is_limit(self):
        return self.kind == "reader" and self.problem in self.LIMITS

    def lines(self):
        text = "FAULT %s %s %s\n" % (self.kind, self.place.field(), self.problem)
        if self.context:
            text += "CONTEXT %s %s\n" % (self.context_place.field(), self.context)
        return text.encode("utf-8", "backslashreplace")

    def __str__(self):
        after = "after %d token%s" % (self.place.index, "" if self.place.index == 1 else "s")
        if self.is_limit():
            return "%s, %s: a limit of this program, no fault of the YAML" % (self.problem, after)
        if self.is_of_lines():
            return "%s, %s (%s)" % (self.problem, after, self.kind)
        return "%s: %s (%s)" % (self.place, self.problem, self.kind)


class Output:
    """Standard output; the last bytes are kept back until it is known which fault they end with."""

    def __init__(self):
        self.kept = b""

    def write(self, piece):
        piece = self.kept + piece
        write_all(memoryview(piece)[:-LONGEST_FAULT])
        self.kept = piece[-LONGEST_FAULT:]

    def end(self, scanners):
        """Writes the rest, with the scanner's fault where the tokens ran out by it; returns the fault that stands."""
        fault, begin = Fault.at_end_of(self.kept)
        if scanners and fault and fault.problem == "no more tokens":
            fault, self.kept = scanners, self.kept[:begin] + scanners.lines()
        write_all(memoryview(self.kept))
        return fault


def write_all(piece):
    """Writes bytes to standard output."""
    try:
        while piece:
            piece = piece[os.write(1, piece):]
    except OSError as error:
        raise Failure.of("output failed", error)


class Tokens:
    """No run: the token lines are written as they come."""

    def give(self, lines):
        write_all(memoryview(lines))
        return True

    def end(self, scanners):
        return scanners

    def close(self):
        pass


class Program:
    """A run of `yamltokens` through pipes."""

    # The line of a token that only a document has.
    OF_DOCUMENT = re.compile(br"(?:\A|\n)(?!STREAM-|DOCUMENT-END|\Z)")

    def __init__(self, mode, path):
        built = [os.path.join(os.path.dirname(HERE), place) for place in BUILT]
        found = next(filter(os.path.exists, built), "yamltokens")
        self.path = found if path is None else path
        self.mode, self.has_node, self.output = mode, False, Output()
        pipe = subprocess.PIPE
        try:
            self.process = subprocess.Popen([self.path, mode], bufsize=0, stdin=pipe, stdout=pipe,
                                            stderr=subprocess.DEVNULL)
        except FileNotFoundError as error:
            failure = Failure.of("cannot run %s" % self.path, error)
            raise failure if path is not None else Failure("%s; to build it: %s" % (failure, HOW_TO_BUILD))
        except OSError as error:
            raise Failure.of("cannot run %s" % self.path, error)
        self.into, self.out = self.process.stdin.fileno(), self.process.stdout.fileno()
        os.set_blocking(self.into, False)

    def take(self):
        """Passes on what the run has written; returns whether there may be more."""
        piece = os.read(self.out, BYTES_AT_ONCE)
        self.output.write(piece)
        return bool(piece)

    def give(self, lines):
        """Gives token lines to the run; returns whether it reads on."""
        self.has_node = self.has_node or bool(self.OF_DOCUMENT.search(lines))
        lines = memoryview(lines)
        while lines:
            readable, writable, _ = select.select([self.out], [self.into], [])
            if readable and not self.take():
                return False
            try:
                lines = lines[os.write(self.into, lines):] if writable else lines
            except BrokenPipeError:
                return False
        return True

    def end(self, scanners):
        """Ends the tokens and passes on the rest; returns the fault that stands."""
        self.process.stdin.close()
        while self.take():
            pass
        status = self.process.wait()
        fault = self.output.end(scanners)
        if fault and fault.kind == "memory":
            raise MemoryError
        if status != (1 if fault else 0):
            raise Failure("%s failed, with status %d" % (self.path, status))
        if not fault and not self.is_whole():
            raise Failure("%s ended without writing its %s" % (self.path, self.mode))
        return fault

    def is_whole(self):
        """Returns whether what a run without a fault has written may be all of it: it has an end, or a document."""
        if self.mode.endswith("events"):
            return self.output.kept.rpartition(b"\n")[0].rpartition(b"\n")[2].startswith(b"STREAM-END ")
        return bool(self.output.kept) or not self.has_node

    def close(self):
        self.process.kill()
        self.process.wait()


UNSAFE = re.compile("[^!-$&-~]").search
INVISIBLE = re.compile("[^!-~]+")


def escaped(value):
    """Returns a text as a line has it: its UTF-8 bytes, those that need it as `%` and two digits."""
    if not UNSAFE(value):
        return value
    value = value.replace("%", "%25").replace(" ", "%20").replace("\n", "%0A")
    if value.isascii() and value.isprintable():
        return value
    return INVISIBLE.sub(lambda run: "%" + run.group().encode().hex("%").upper(), value)


class Scanner:
    """PyYAML's scanner over a text."""

    def __init__(self, yaml, data):
        self.yaml, self.data, self.loader, self.fault = yaml, data, None, None
        points = yaml.BlockMappingStartToken, yaml.BlockSequenceStartToken, yaml.BlockEndToken
        fields = {
            yaml.StreamStartToken: lambda token: " %s\n" % ENCODINGS[token.encoding],
            yaml.AliasToken: lambda token: " =%s\n" % escaped(token.value),
            yaml.AnchorToken: lambda token: " =%s\n" % escaped(token.value),
            yaml.TagToken: lambda token: " =%s =%s\n" % (escaped(token.value[0] or ""), escaped(token.value[1])),
            yaml.ScalarToken: lambda token: " =%s%s" % (escaped(token.value), STYLES[token.style]),
        }
        # Of each kind of token: its name, what makes its fields, and whether it has no width.
        self.forms = {kind: (line_name(kind), fields.get(kind), kind in points) for kind in vars(yaml).values()
                      if isinstance(kind, type) and issubclass(kind, yaml.Token) and kind is not yaml.DirectiveToken}

    def directive(self, token):
        """Returns the form of a directive's line, which its name decides."""
        if token.name == "YAML":
            if max(token.value) > 0x7FFFFFFF:  # of PyYAML without its C part
                raise self.yaml.scanner.ScannerError("while scanning a %YAML directive", token.start_mark,
                                                     "found extremely long version number", token.end_mark)
            return "VERSION-DIRECTIVE", lambda token: " %d.%d\n" % token.value, False
        if token.name == "TAG":
            return "TAG-DIRECTIVE", lambda token: " =%s =%s\n" % tuple(map(escaped, token.value)), False
        raise self.yaml.scanner.ScannerError("while scanning a directive", token.start_mark,
                                             "found unknown directive name", token.end_mark)

    def begin(self):
        """Returns what gives the next token."""
        loader = self.loader = getattr(self.yaml, "CSafeLoader", self.yaml.SafeLoader)(self.data)
        if isinstance(loader, self.yaml.reader.Reader) and loader.peek() == "\ufeff":
            loader.forward()
            loader.index = 0  # as in libyaml, where a byte order mark is no character
        return loader.get_token

    def lines(self):
        """Yields the line of each token, up to the fault that ends them, if any.

        Most of the time goes here. So a mark is made once for all neighbours that have it, and a line's number once.
        """
        try:
            next_token, forms, last, kind = self.begin(), self.forms, self.yaml.StreamEndToken, None
            index, line, line_text, mark = None, None, "", ""
            while kind is not last:
                token = next_token()
                kind = type(token)
                name, fields, is_point = forms.get(kind) or self.directive(token)
                place = token.start_mark
                if place.index != index or place.line != line:
                    index, column = place.index, place.column
                    if place.line != line:
                        line = place.line
                        line_text = ":%s:" % line
                    mark = "%s%s%s" % (index, line_text, SMALL[column] if column < len(SMALL) else column)
                start = mark
                if not is_point:
                    place = token.end_mark
                    if place.index != index or place.line != line:
                        index, column = place.index, place.column
                        if place.line != line:
                            line = place.line
                            line_text = ":%s:" % line
                        mark = "%s%s%s" % (index, line_text, SMALL[column] if column < len(SMALL) else column)
                yield "%s %s %s%s" % (name, start, mark, fields(token) if fields else "\n")
        except self.yaml.reader.ReaderError as error:
            self.fault = Fault("reader", self.place_in_text(error), error.reason)
        except self.yaml.MarkedYAMLError as error:
            self.fault = Fault("scanner", place_of(error.problem_mark), error.problem,
                               place_of(error.context_mark), error.context)
        except UnicodeEncodeError:  # of PyYAML without its C part, as by the escape "\uD800": the scanner is further on
            self.fault = Fault("scanner", place_of(token.start_mark), "found a character or number out of range")
        except (ValueError, OverflowError):  # of PyYAML without its C part, as by the escape "\UFFFFFFFF"
            self.fault = Fault("scanner", place_of(self.loader.get_mark()), "found a character or number out of range")

    def run(self, give):
        """Gives the lines of the tokens, many at once, while they are taken; returns the fault that ended them."""
        lines = self.lines()
        while True:
            piece = "".join(itertools.islice(lines, TOKENS_AT_ONCE)).encode()
            if not piece or not give(piece):
                return self.fault

    def place_in_text(self, error):
        """Returns where the reader's fault is: it says how many bytes or characters come before it."""
        data, position = self.data, error.position
        encoding = {b"\xff\xfe": "utf-16-le", b"\xfe\xff": "utf-16-be"}.get(data[:2], "utf-8")
        if error.encoding == "unicode":
            before = data.decode(encoding, "replace")[:position]
        else:
            before = data[:position].decode(encoding, "ignore")
        before = before[1:] if before[:1] == "\ufeff" else before
        lines = re.split("\r\n|[\r\n\x85\u2028\u2029]", before)
        return Place(len(before), len(lines) - 1, len(lines[-1]))


def place_of(mark):
    return mark and Place(mark.index, mark.line, mark.column)


def line_name(kind):
    """Returns the name in the lines of a kind of token: `FlowSequenceStartToken` is `FLOW-SEQUENCE-START`."""
    return re.sub(r"\B([A-Z])", r"-\1", kind.__name__[:-len("Token")]).upper()


def import_yaml():
    """Returns PyYAML."""
    try:
        import yaml
        yaml.SafeLoader, yaml.reader.ReaderError
    except (ImportError, AttributeError) as error:
        raise Failure("needs PyYAML (Debian: python3-yaml): %s" % error)
    return yaml


def shown(name):
    return "standard input" if name == "-" else name


def read(name):
    """Returns the bytes of a file or of standard input."""
    try:
        with open(0 if name == "-" else name, "rb", closefd=name != "-") as file:
            return file.read()
    except OSError as error:
        raise Failure.of(shown(name), error)


def read_words(words):
    """Returns the mode, the file's name, and what makes the run."""
    options, names, words = {}, [], iter(words)
    for word in words:
        if word == "--program":
            options[word] = next(words, None)
        elif word[0:1] == "-" != word:
            raise WrongWords
        else:
            names.append(word)
    is_run = bool(names) and names[0] in ("events", "nodes")
    if len(names) != 2 or len(options) > 1 or None in options.values() or not (is_run or names[0] == "tokens"):
        raise WrongWords
    if not is_run:
        if options:
            raise WrongWords
        return names[1], Tokens
    return names[1], lambda: Program(names[0], options.get("--program"))


def main(words):
    """Does what the words say; returns the exit status and the message."""
    if words == ["--help"]:
        write_all(memoryview(USAGE.encode()))
        return 0, None
    name, begin = read_words(words)
    data, yaml = read(name), import_yaml()
    run = begin()
    try:
        fault = run.end(Scanner(yaml, data).run(run.give))
    finally:
        run.close()
    if not fault:
        return 0, None
    return 3 if fault.is_limit() else 1, "%s: %s" % (shown(name), fault)


def fill_closed():
    """Opens the standard files that are closed, so that no other file gets their numbers and each use fails."""
    for number, way in ((0, os.O_WRONLY), (1, os.O_RDONLY), (2, os.O_WRONLY)):
        try:
            os.fstat(number)
        except OSError:
            os.open(os.devnull, way)


def told(words):
    """Does what the words say, and tells on standard error what keeps it from that; returns the exit status."""
    try:
        status, message = main(words)
    except WrongWords:
        status, message = 2, "usage: yaml_lines.py tokens|events|nodes FILE [--program PATH]; or --help"
    except Failure as failure:
        status, message = 3, failure
    except MemoryError:
        status, message = 3, "out of memory"
    except KeyboardInterrupt:
        status, message = 130, "interrupted"
    if message:
        try:
            os.write(2, ("yaml_lines.py: %s\n" % message).encode("utf-8", "backslashreplace"))
        except OSError:
            pass
    return status


if __name__ == "__main__":
    fill_closed()
    sys.exit(told(sys.argv[1:]))
