"""Lists of token lines, drawn at random: `draw` gives the same list for the same seed and number."""
import random
from typing import NamedTuple

KINDS = ("sentences", "mutated sentences", "of any tokens", "with a spoilt line")
SENTENCE, MUTATED, ANY_TOKENS, SPOILT_LINE = KINDS

NAMES = """STREAM-START STREAM-END VERSION-DIRECTIVE TAG-DIRECTIVE DOCUMENT-START DOCUMENT-END BLOCK-SEQUENCE-START
BLOCK-MAPPING-START BLOCK-END FLOW-SEQUENCE-START FLOW-SEQUENCE-END FLOW-MAPPING-START FLOW-MAPPING-END BLOCK-ENTRY
FLOW-ENTRY KEY VALUE ALIAS ANCHOR TAG SCALAR NO-TOKEN""".split()
IN_STREAM = NAMES[2:-1]
ENCODINGS = ("any", "utf8", "utf8", "utf16le", "utf16be")
STYLES = ("any", "plain", "single", "double", "literal", "folded")
ACCEPTED = ("1.1", "1.2")
VERSIONS = (*ACCEPTED, "1.3", "2.0", "-1.1", "1.-2147483648", "0.1")
HANDLES = ("!", "!!", "!e!", "!f!", "!é!", "")
PREFIXES = ("p:", "", "tag:x,2000:", "!", "é")
SUFFIXES = ("x", "", "!", "str", "é", "x y")
TEXTS = ("", "a", "b", "!", "x y", "é", "\U0001f600", "%", "=", "\n", "\x7f", "tag:yaml.org,2002:str", "k" * 200)
PIECES = (
    *(b"%", b"=", b":", b"0", b" ", b"\0", b"\xff"),
    *(b"%ED%A0%80", b"%F4%90%80%80", b"%C3", b"%zz", b"%4", b"-", b"x"),
)


class TokenList(NamedTuple):
    """A list that was drawn: its lines, each with its LF, which the last may lack."""

    kind: str
    has_zeros: bool
    lines: list


class Tokens:
    """Draws tokens. A token is its name and the fields after its marks, as bytes; a text may get a zero byte."""

    def __init__(self, source, has_zeros):
        self.random, self.has_zeros = source, has_zeros

    def with_zero(self, text):
        at = self.random.choice((0, 1, 1, len(text)))
        return text[:at] + "\0" + text[at:] if self.has_zeros and self.random.random() < 0.2 else text

    def field(self, text):
        """A text with its escapes, of which some that need not be are left out."""
        needed = range(0x7F, 0x100) if self.random.random() < 0.9 else ()
        escape = "%%%02X" if self.random.random() < 0.9 else "%%%02x"
        odd = (*range(0x21), ord("%"), *needed)
        return b"=" + b"".join((escape % byte).encode() if byte in odd else bytes((byte,)) for byte in text.encode())

    def texts(self, *choices):
        return [self.field(self.with_zero(self.random.choice(texts))) for texts in choices]

    def words(self, *choices):
        return [self.random.choice(words).encode() for words in choices]

    def token(self, name):
        """A token of this name, with fields that may fit nothing before it."""
        fields = {
            "STREAM-START": lambda: self.words(ENCODINGS),
            "VERSION-DIRECTIVE": lambda: self.words(VERSIONS),
            "TAG-DIRECTIVE": lambda: self.texts(HANDLES, PREFIXES),
            "ALIAS": lambda: self.texts("abcdefgh"),
            "ANCHOR": lambda: self.texts("abcdefgh"),
            "TAG": lambda: self.texts(HANDLES, SUFFIXES),
            "SCALAR": lambda: self.texts(TEXTS) + self.words(STYLES),
        }.get(name, list)
        return [name.encode(), *fields()]

    def any(self):
        return self.token(self.random.choice(IN_STREAM if self.random.random() < 0.9 else NAMES))


class Sentence:
    """Draws the tokens of a stream, in order (docs/DEFINITIONS.md, "Derivation trees" and "Documents in order")."""

    def __init__(self, source, tokens):
        self.random, self.tokens = source, tokens
        self.nodes_left = source.choice((3, 8, 20, 60, 150))
        self.is_deep = source.random() < 0.1
        self.anchor = source.choice(("n", "n\0", "\0")) if tokens.has_zeros else "n"
        self.out = []
        self.stream()

    def put(self, *names):
        self.out += [self.tokens.token(name) for name in names]

    def chance(self, probability):
        return self.random.random() < probability

    def count(self):
        return 1 if self.is_deep else self.random.choice((0, 1, 2, 4))

    def stream(self):
        self.put("STREAM-START")
        may_be_implicit = True
        for _ in range(self.random.choice((0, 1, 1, 1, 2, 3))):
            self.document(may_be_implicit and self.chance(0.6))
            ends = self.random.choice((0, 0, 1, 1, 3))
            self.put(*["DOCUMENT-END"] * ends)
            may_be_implicit = ends > 0
        self.put("STREAM-END")

    def document(self, is_implicit):
        self.anchors = 0
        self.known = ["", "!", "!!"]
        if not is_implicit:
            self.directives()
            self.put("DOCUMENT-START")
        if is_implicit or self.chance(0.8):
            self.block_node()

    def directives(self):
        handles = [*HANDLES, "!\0", "\0!"] if self.tokens.has_zeros else HANDLES
        declared = self.random.sample(handles, self.random.choice((0, 0, 1, 3)))
        directives = [[b"TAG-DIRECTIVE", self.tokens.field(h), *self.tokens.texts(PREFIXES)] for h in declared]
        if self.chance(0.3):
            directives.append([b"VERSION-DIRECTIVE", *self.tokens.words(ACCEPTED)])
        self.random.shuffle(directives)
        self.known += declared
        self.out += directives

    # ---- Nodes ----

    def block_node(self, may_be_indentless=False):
        kinds = [self.block_sequence, self.block_mapping, self.block_mapping]
        self.node(kinds + [self.indentless_sequence] * 2 * may_be_indentless)

    def flow_node(self):
        self.node([])

    def node(self, block_kinds):
        self.nodes_left -= 1
        if self.chance(0.1 if self.anchors > 0 else 0.002):
            return self.alias()
        if self.properties() and self.chance(0.2):
            return None
        collections = [self.flow_sequence, self.flow_mapping, *block_kinds] if self.nodes_left > 0 else []
        scalars = [] if self.is_deep and collections else [self.scalar] * 2
        return self.random.choice(scalars + collections)()

    def anchor_name(self, number):
        return self.tokens.field(f"{self.anchor}{number}")

    def alias(self):
        if self.anchors > 0 and self.chance(0.98):
            self.out.append([b"ALIAS", self.anchor_name(self.random.randrange(self.anchors))])
        else:
            self.put("ALIAS")

    def properties(self):
        properties = []
        if self.chance(0.15):
            is_second = self.anchors > 0 and self.chance(0.05)
            number = self.random.randrange(self.anchors) if is_second else self.anchors
            self.anchors = max(self.anchors, number + 1)
            properties.append([b"ANCHOR", self.anchor_name(number)])
        if self.chance(0.15):
            handle = self.tokens.field(self.random.choice(self.known))
            properties.append([b"TAG", handle, *self.tokens.texts(SUFFIXES)])
        self.random.shuffle(properties)
        self.out += properties
        return properties

    def scalar(self):
        self.put("SCALAR")

    def block_sequence(self):
        self.put("BLOCK-SEQUENCE-START")
        self.block_entries(self.count())
        self.put("BLOCK-END")

    def indentless_sequence(self):
        self.block_entries(self.count() or 1)

    def block_entries(self, count):
        for _ in range(count):
            self.put("BLOCK-ENTRY")
            if self.chance(0.75):
                self.block_node()

    def block_mapping(self):
        self.put("BLOCK-MAPPING-START")
        may_begin_with_value = True
        for _ in range(self.count()):
            begins_with_value = may_begin_with_value and self.chance(0.15)
            if not begins_with_value:
                self.block_part("KEY")
            may_begin_with_value = begins_with_value or self.chance(0.85)
            if may_begin_with_value:
                self.block_part("VALUE")
        self.put("BLOCK-END")

    def block_part(self, name):
        self.put(name)
        if self.chance(0.8):
            self.block_node(may_be_indentless=True)

    def flow_sequence(self):
        self.put("FLOW-SEQUENCE-START")
        self.flow_entries(0.4)
        self.put("FLOW-SEQUENCE-END")

    def flow_mapping(self):
        self.put("FLOW-MAPPING-START")
        self.flow_entries(0.8)
        self.put("FLOW-MAPPING-END")

    def flow_entries(self, share_of_pairs):
        count = self.count()
        for number in range(count):
            if self.chance(share_of_pairs):
                self.pair()
            else:
                self.flow_node()
            if number + 1 < count or self.chance(0.2):
                self.put("FLOW-ENTRY")

    def pair(self):
        self.put("KEY")
        if self.chance(0.75):
            self.flow_node()
        if self.chance(0.75):
            self.put("VALUE")
            if self.chance(0.75):
                self.flow_node()


def mutated(source, tokens, out):
    """Changes one to three places of a list of tokens."""
    for _ in range(source.choice((1, 1, 1, 2, 3))):
        at = source.randrange(len(out) + 1)
        end = at + source.randrange(8)
        out[at:end] = source.choice((
            lambda part: part[1:],
            lambda part: [tokens.any(), *part],
            lambda part: [tokens.any(), *part[1:]],
            lambda part: part[1:2] + part[:1] + part[2:],
            lambda part: part + part,
            lambda part: [],
        ))(out[at:end])
        if source.random() < 0.15:
            del out[at:]
    return out


def any_tokens(source, tokens):
    first = [tokens.token("STREAM-START")] if source.random() < 0.95 else []
    return first + [tokens.any() for _ in range(source.choice((0, 1, 2, 3, 4, 6, 10, 30)))]


def with_marks(source, tokens):
    """The lines of tokens, with marks that grow or with any."""
    def any_mark():
        return b"%d:%d:%d" % tuple(source.choice((0, 1, 2, 7, 10, 2**64 - 1, source.getrandbits(40))) for _ in range(3))

    grow = source.random() < 0.75
    marks = [b"%d:0:%d" % (place, place) if grow else any_mark() for place in range(2 * len(tokens))]
    return [b" ".join([token[0], start, end, *token[1:]]) for token, start, end in zip(tokens, marks[::2], marks[1::2])]


def spoilt(source, line):
    """A line that is, mostly, no token line any more."""
    fields, at = line.split(b" "), source.randrange(len(line) + 1)
    field = source.randrange(len(fields))
    return source.choice((
        b"", line + b" ", b" " + line, line.replace(b" ", b"  ", 1), line + b"\r", line[:at], line.lower(),
        *[line[:at] + source.choice(PIECES) + line[at:] for _ in range(6)],
        b" ".join(fields[:field] + fields[field + 1:]), b" ".join(fields[:field] + fields[field - 1:]),
        line.replace(b":0:", b":00:", 1), line.replace(b":0:", b":+0:", 1), line.replace(b":0:", b":%d:" % 2**64, 1),
        line.replace(b"=", b"", 1), line.replace(b"=", b"=%", 1),
    ))


def draw(seed, number):
    kind = KINDS[number % len(KINDS)]
    has_zeros = number // len(KINDS) % 2 == 1
    source = random.Random(f"{seed} {number}")
    tokens = Tokens(source, has_zeros)
    out = any_tokens(source, tokens) if kind == ANY_TOKENS else Sentence(source, tokens).out
    if kind == MUTATED or kind == SPOILT_LINE and source.random() < 0.5:
        out = mutated(source, tokens, out)
    lines = with_marks(source, out)
    if kind == SPOILT_LINE and lines:
        at = source.randrange(len(lines))
        lines[at] = spoilt(source, lines[at])
    ends = [b"\n"] * (len(lines) - 1) + [source.choice((b"", *[b"\n"] * 19))]
    return TokenList(kind, has_zeros, [line + end for line, end in zip(lines, ends)])
