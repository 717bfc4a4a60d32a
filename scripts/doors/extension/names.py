"""What an error is about: test vectors, and drawn texts by the loaders in C and in Python beside the source.

    names.py COUNT SEED [--turned]
    names.py write DIR COUNT SEED

Each test vector is a text and the `name` of its error, of a parse and of a load. Of COUNT texts that are drawn each error has the name
that stands in the text where its mark is, between the marks of PyYAML's token, if its words say that it is about one; and else None.
By the tokens before it that name has to be declared, or not to be. Exits with status 1 if something differs, or an error never comes;
with `--turned` the names are longer. The second writes drawn texts as files of DIR, and prints their names.

Run by extension_checks.sh, and with `write` by clients.sh.
"""
import collections
import os
import random
import re
import sys

import yaml

VECTORS = [
    ("- *ab\n", None, "ab"),
    ("- &x 1\n- !t &x 2\n", None, "x"),
    ("- &x 1\n- &x !t\n", None, "x"),
    ("[&a [], *a, &b {}, *c]", None, "c"),
    ("--- &a b\n--- *a\n", None, "a"),
    ("!e!x a", "!e!", "!e!"),
    ("!e!x &a b", "!e!", "!e!"),
    ("%TAG !f! g\n--- &a !e!x b", "!e!", "!e!"),
    ("%TAG !e! a\n--- !e!b c\n--- !e!d e\n", "!e!", "!e!"),
    ("%TAG !e! a\n%TAG !f! b\n%TAG !e! c\n---", "!e!", "!e!"),
    ("[&a b }", None, None),
    ("%YAML 2.0\n---", None, None),
    ("[&a b, *a]", None, None),
    ("a\n--- &x\n- *y", None, "y"),
]
NAMES = ["a", "b", "c-1", "_", "Z9", "n" * 70]
HANDLES = ["!", "!!", "!e!", "!f-1!", "!" + "h" * 70 + "!"]
BREAKS = [" ", " ", "  ", "\n  ", " # !x &y *z\n   "]


class Draw:
    """A document, most of whose aliases and handles are declared."""

    def __init__(self, random_):
        self.random, self.anchors = random_, []
        self.handles = random_.sample(HANDLES, random_.randrange(4))

    def is_one(self, share):
        return self.random.random() < share

    def name(self, right, names):
        return self.random.choice(right if right and self.is_one(0.93) else names)

    def anchor(self):
        left = [name for name in NAMES if name not in self.anchors]
        self.anchors.append(self.name(left, NAMES))
        return "&" + self.anchors[-1]

    def properties(self):
        """Draws an anchor, a tag, both or neither."""
        parts = [self.anchor()] if self.is_one(0.25) else []
        if self.is_one(0.3):
            parts.append(self.name([*self.handles, "!", "!!"], HANDLES) + "t" if self.is_one(0.9) else "!<&a>")
        self.random.shuffle(parts)
        return "".join(part + self.random.choice(BREAKS) for part in parts)

    def node(self, depth=0):
        """Draws a node in flow style, or an alias."""
        if self.is_one(0.2 if self.anchors else 0.02):
            return "*" + self.name(self.anchors, NAMES) + " "
        before = self.properties()
        items = [self.node(depth + 1) for _ in range(self.random.randrange(3))] if depth < 3 else []
        pairs = [f"? {item}: y" for item in items]
        return before + self.random.choice(["x", "'*a &b !c!d'", "[" + ", ".join(items) + "]", "{" + ", ".join(pairs) + "}"])

    def directives(self):
        again = [self.random.choice(self.handles)] if self.handles and self.is_one(0.1) else []
        return "".join(f"%TAG{self.random.choice([' ', '  '])}{handle} t: \n" for handle in self.handles + again)

    def document(self):
        return self.directives() + "---\n" + "".join(f"- {self.node()}\n" for _ in range(self.random.randrange(1, 5)))


def drawn(random_):
    """Draws a stream, some of it broken."""
    documents = [Draw(random_).document() for _ in range(random_.choice([1, 1, 2, 3]))]
    text = "".join(document + ("...\n" if random_.random() < 0.8 else "") for document in documents)
    if random_.random() < 0.1:
        place = random_.randrange(len(text))
        text = text[:place] + random_.choice("[]{},?:&*!") + text[place:]
    return text


# ---- What the source has ----

KINDS = {
    "alias": "undefined alias|an alias within the node",
    "anchor": "second occurrence",
    "handle": "undefined tag handle",
    "directive": "duplicate (%TAG directive|tag handle)",
}
CLASSES = {"alias": yaml.AliasToken, "anchor": yaml.AnchorToken, "handle": yaml.TagToken, "directive": yaml.DirectiveToken}
PARTS = {"alias": r"\*(\S+)", "anchor": r"&(\S+)", "handle": r"(!\S*?!|!)", "directive": r"%TAG\s+(\S+)"}


def kind_of(error):
    """What an error is about by its words, or None."""
    return next((kind for kind, words in KINDS.items() if re.search(words, error.problem)), None)


def tokens_of(text, scanner):
    """PyYAML's tokens up to its scanner's error."""
    try:
        yield from yaml.scan(text, Loader=scanner)
    except yaml.YAMLError:
        pass


def of_documents(text, scanner):
    """Each token of a text, the source of it, and what its document has declared before it: anchors, and handles."""
    anchors, handles, is_begun = set(), set(), False
    for token in tokens_of(text, scanner):
        source = text[token.start_mark.index:token.end_mark.index]
        ends = isinstance(token, yaml.DocumentEndToken)
        begins = isinstance(token, (yaml.DocumentStartToken, yaml.DirectiveToken))
        if ends or begins:
            anchors = set()
        if ends or begins and is_begun:
            handles = set()
        yield token, source, anchors, handles
        is_begun = isinstance(token, yaml.DocumentStartToken) or is_begun and not ends and not begins
        if isinstance(token, yaml.AnchorToken):
            anchors.add(re.match(PARTS["anchor"], source)[1])
        if isinstance(token, yaml.DirectiveToken):
            handles.add(re.match(PARTS["directive"], source)[1])


def reference(text, error, scanner):
    """The kind and the name that the source has where an error is, or None twice."""
    kind = kind_of(error)
    if kind is None:
        return None, None
    for token, source, anchors, handles in of_documents(text, scanner):
        if isinstance(token, CLASSES[kind]) and token.start_mark.index >= error.problem_mark.index:
            name = re.match(PARTS[kind], source)[1]
            is_declared = name in (anchors if kind in ("alias", "anchor") else handles)
            should_be = kind in ("anchor", "directive") or "within" in error.problem
            return kind, name if is_declared == should_be else f"{name}, which may stand there"
    return kind, "no token is there"


# ---- The loaders ----

def error_of(read, loader, text):
    try:
        for _ in read(text, Loader=loader):
            pass
    except (yaml.parser.ParserError, yaml.composer.ComposerError) as error:
        return error
    except yaml.YAMLError:
        pass
    return None


def loaders():
    import pokhvizi

    def bounded(base):
        return type(f"Bounded{base.__name__}", (base,), {"max_expanded": 100000})

    fixed = type("Fixed", (pokhvizi.CSafeLoader,), {"fixes": True})
    both = pokhvizi.CSafeLoader, pokhvizi.SafeLoader
    return [*both, fixed, *map(bounded, both)]


def is_named(loader):
    """Whether the error has a name that there are two documents where one is asked for."""
    error = error_of(lambda text, Loader: [yaml.compose(text, Loader)], loader, "--- &a b\n--- &a b\n")
    return error is None or error.name is not None


def main(count, seed, is_turned):
    wrong, counts = sum(map(is_named, loaders())), collections.Counter()
    rows = [(text, names) for text, *names in VECTORS]
    rows += [(drawn(random.Random(f"{seed} {number}")), None) for number in range(count)]
    for text, names in rows:
        for loader in loaders():
            for is_load, read in enumerate((yaml.parse, yaml.compose_all)):
                error = error_of(read, loader, text)
                scanner = yaml.Loader if issubclass(loader, yaml.SafeLoader) else yaml.CLoader
                kind, name = reference(text, error, scanner) if error else (None, None)
                counts[kind] += 1
                said = error and error.name
                name = name + "x" if is_turned and name else name
                if said != name or (names and names[is_load] != said):
                    wrong += 1
                    print(f"wrong: {text!r} by {loader.__name__}: {said}, and not {name}")
    told = ", ".join(f"{counts[kind]} {kind}" for kind in KINDS)
    print(f"{len(VECTORS)} test vectors, {count} texts: {told}, {counts[None]} without a name: {wrong} wrong")
    return wrong > 0 or any(counts[kind] == 0 for kind in [*KINDS, None])


def write(folder, count, seed):
    texts = [text for text, *_ in VECTORS] + [drawn(random.Random(f"{seed} {number}")) for number in range(count)]
    for number, text in enumerate(texts):
        name = os.path.join(folder, f"name{number}.yaml")
        with open(name, "w", encoding="utf-8", newline="") as file:
            file.write(text)
        print(name)


if __name__ == "__main__":
    if sys.argv[1] == "write":
        write(sys.argv[2], int(sys.argv[3]), sys.argv[4])
    else:
        sys.exit(main(int(sys.argv[1]), sys.argv[2], "--turned" in sys.argv))
