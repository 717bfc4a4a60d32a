"""Evaluates the notation of test vectors in `specs/vectors`: short definitions over numbers, texts, lists and records.

    Notation(files).value(NAME)

is what the definition NAME stands for: an int, a list, a dict (a record), or a tuple of a name and its arguments. Such is each
name that no file defines: a constructor, or what a test vector claims. For lists.py.
"""
import re

WORD = re.compile(r'\s*(?:--[^\n]*\n\s*)*("[^"]*"|\d+|[^\W\d][\w.]*|\[\]|\+\+|\S)')
HEAD = re.compile(r"([^\W\d]\w*)((?: (?:\w+|\[\]|\([^()]*\)))*) ?=(?:\s|$)")
BINARY = [("≡", "→", "×"), ("∷", "++"), ("+",), ("*",)]  # from the weakest; all but the last two are right associative
OPEN = "(" , "{"


def parsed(text):
    """The term that a text stands for: a number, a text, or a tuple that begins with its kind."""
    words = WORD.findall(text)
    place = 0

    def peek():
        return words[place] if place < len(words) else None

    def take(wanted=None):
        nonlocal place
        word = peek()
        if word is None or wanted not in (None, word):
            raise ValueError(f"{wanted or 'a term'} is missing at {' '.join(words[max(0, place - 8):place + 3])}")
        place += 1
        return word

    def term(level=0):
        if peek() == "λ":
            take()
            name = take().rstrip(".")
            return ("function", name, term())
        if level == len(BINARY):
            return applied()
        left = term(level + 1)
        while peek() in BINARY[level]:
            sign = take()
            left = (sign, left, term(level if level < 2 else level + 1))
        return left

    def applied():
        parts = [atom()]
        while peek() and (peek()[0].isalnum() or peek()[0] in '("_' or peek() in ("[]", "⊥")):
            parts.append(atom())
        return parts[0] if len(parts) == 1 else ("apply", *parts)

    def atom():
        word = take()
        if word == "(":
            inner = [term()]
            while peek() == ",":
                take()
                inner.append(term())
            take(")")
            return inner[0] if len(inner) == 1 else ("pair", *inner)
        if word == "record":
            return record()
        if word.isdigit():
            return int(word)
        if word[0] == '"':
            return word
        return ("name", word)

    def record():
        while peek() != "{":
            atom()
        take("{")
        fields = {}
        while peek() != "}":
            name = take()
            take("=")
            fields[name] = term()
            if peek() == ";":
                take()
        take("}")
        return ("record", fields)

    found = term()
    if peek() is not None:
        raise ValueError(f"more than a term: {' '.join(words[place:place + 8])}")
    return found


def matched(pattern, value, names):
    """Whether a value has a pattern's form; what the pattern's names stand for is put into `names`."""
    if pattern == ("name", "[]"):
        return value == []
    if pattern[0] == "name":
        names[pattern[1]] = value
        return True
    if pattern[0] == "∷":
        return isinstance(value, list) and value != [] and matched(pattern[1], value[0], names) and matched(pattern[2], value[1:], names)
    return False


class Notation:
    """The definitions of some files, and their values."""

    def __init__(self, files, opaque=()):
        self.equations, self.named, self.opaque = {}, {}, set(opaque)
        for file in files:
            self.read(file)

    def read(self, file):
        name = None
        for line in file.read_text().splitlines():
            if re.match(r"(abbrev|use|pub|ghost|--)", line):
                name = None
            elif found := HEAD.match(line):
                name = found[1]
                if self.named.setdefault(name, file) != file:
                    raise ValueError(f"{name} is defined in {self.named[name]} and in {file}")
                self.equations.setdefault(name, []).append([found[2], line[found.end():]])
            elif name:
                self.equations[name][-1][1] += "\n" + line

    def text(self, name):
        return self.equations[name][0][1]

    def value(self, name):
        return self.found(name, {})

    def found(self, name, names):
        if name in names:
            return names[name]
        head, _, field = name.partition(".")
        if field and head in names:
            return names[head][field]
        if name == "[]":
            return []
        if name in self.equations and name not in self.opaque:
            first = self.equations[name][0]
            return self.of(parsed(first[1]), {}) if not first[0] else lambda *given: self.called(name, given)
        return (name.rpartition(".")[2],)

    def called(self, name, given):
        for patterns, body in self.equations[name]:
            terms = parsed("list_of " + patterns)[2:] if patterns else ()
            names = {}
            if len(given) < len(terms):
                return lambda *more: self.called(name, given + more)
            if all(matched(*both, names) for both in zip(terms, given)):
                value = self.of(parsed(body), names)
                return value(*given[len(terms):]) if len(given) > len(terms) else value
        raise ValueError(f"no equation of {name} fits {given}")

    def of(self, term, names):
        """The value of a term."""
        if isinstance(term, int):
            return term
        if isinstance(term, str):
            return list(term[1:-1].encode())
        kind, *rest = term
        if kind == "name":
            return self.found(rest[0], names)
        if kind == "record":
            return {field: self.of(value, names) for field, value in rest[0].items()}
        if kind == "function":
            return lambda value, *more: self.of(rest[1], {**names, rest[0]: value})
        values = [self.of(part, names) for part in rest]
        if kind == "apply":
            return self.applied(values[0], values[1:])
        if kind in ("∷", "++"):
            return ([values[0]] if kind == "∷" else values[0]) + values[1]
        if kind in ("+", "*"):
            return values[0] + values[1] if kind == "+" else values[0] * values[1]
        return (kind, *values)

    def applied(self, head, given):
        if callable(head):
            return head(*given)
        if head in (("codes",), ("pos",)):
            return given[0]
        if head == ("take",):
            return given[1][:given[0]]
        if head == ("map",):
            return [self.applied(given[0], [item]) for item in given[1]]
        if head == ("event",):
            return dict(zip(("content", "start_mark", "end_mark"), given))
        return (*head, *given)
