#!/usr/bin/env python3
"""The lists of tokens that the bench takes, as token lines: `lists.py DIR` writes DIR/NAME.tokens for each kind of list
(`KINDS`), DIR/NAME-few.tokens and DIR/NAME-many.tokens for those of `GROWING`, DIR/NAME-LENGTH.tokens for those of
`REPEATED`, and DIR/program.tokens.

The mixes are those of crates/vectors/data/real; each other list repeats one form and has some 4,000 tokens, or ten
times as many, or as many as `LENGTHS` says: glibc keeps and gives back blocks in another way at each length, so that a
figure of one may be luck."""
import os
import sys

REAL = os.path.join(os.path.dirname(os.path.abspath(__file__)), "../crates/vectors/data/real")
FILES = ["compose", "list", "manifests", "workflow"]
TOKENS = 4000
PROGRAM_LINES = 60000

KINDS = {
    "mix": "four configuration files in one stream",
    "services": "one of them, a file of services",
    "documents": "documents of one token",
    "sequence": "a block sequence of scalars",
    "mapping": "a block mapping of scalars",
    "mappings": "block mappings inside one another",
    "flow": "flow sequences inside one another",
    "anchors": "scalars with anchors, each with an alias",
    "aliases": "aliases of one scalar",
    "texts": "scalars of 1,024 bytes",
    "tags": "scalars with tags",
    "directives": "documents with directives and a tag",
    "empty": "a block mapping of keys without values",
    "pairs": "a flow sequence of pairs",
    "pieces": "short flow sequences in a block sequence",
}

GROWING = {kind: KINDS[kind] for kind in ("documents", "mappings", "flow", "anchors", "aliases")}
GROWING["handles"] = "tag directives of one document"
REPEATED = [kind for kind in KINDS if kind not in ("mix", "services")]
LENGTHS = (600, 5000, 40000)


def shifted(mark, index, line):
    """A mark, so many characters and lines further on."""
    parts = mark.split(":")
    return f"{int(parts[0]) + index}:{int(parts[1]) + line}:{parts[2]}"


def stream(files):
    """The lines of a stream of files, each between `---` and `...` on lines of their own."""
    yield "STREAM-START 0:0:0 0:0:0 utf8"
    index = line = 0
    for tokens in files:
        yield f"DOCUMENT-START {index}:{line}:0 {index + 3}:{line}:3"
        index, line = index + 4, line + 1
        for name, start, end, *fields in tokens[1:-1]:
            yield " ".join([name, shifted(start, index, line), shifted(end, index, line)] + fields)
        end = tokens[-1][2].split(":")
        index, line = index + int(end[0]) + 1, line + int(end[1]) + 1
        yield f"DOCUMENT-END {index}:{line}:0 {index + 3}:{line}:3"
        index, line = index + 4, line + 1
    yield f"STREAM-END {index}:{line}:0 {index}:{line}:0"


def real_file(name):
    """The tokens of a file, each as its fields."""
    with open(os.path.join(REAL, name + ".tokens"), encoding="ascii") as lines:
        return [line.split() for line in lines]


def scalar(text):
    return f"SCALAR ={text} plain"


def entries(count, *tokens):
    """A block sequence of that many entries; `#` in a token is the entry's number."""
    return ["BLOCK-SEQUENCE-START"] + repeated(count, "BLOCK-ENTRY", *tokens) + ["BLOCK-END"]


def repeated(count, *tokens):
    return [token.replace("#", str(number)) for number in range(count) for token in tokens]


def tokens_of(kind, n):
    """Some n tokens of a kind between STREAM-START and STREAM-END, without marks."""
    pair = ["KEY", scalar("key#"), "VALUE"]
    if kind == "documents":
        return ["DOCUMENT-START"] * n
    if kind == "sequence":
        return entries(n // 2, scalar("value#"))
    if kind == "mapping":
        return ["BLOCK-MAPPING-START"] + repeated(n // 4, *pair, scalar("value#")) + ["BLOCK-END"]
    if kind == "mappings":
        return repeated(n // 5, "BLOCK-MAPPING-START", *pair) + [scalar("v")] + ["BLOCK-END"] * (n // 5)
    if kind == "flow":
        return ["FLOW-SEQUENCE-START"] * (n // 2) + ["FLOW-SEQUENCE-END"] * (n // 2)
    if kind == "anchors":
        return entries(n // 5, "ANCHOR =a#", scalar("value#"), "BLOCK-ENTRY", "ALIAS =a#")
    if kind == "aliases":
        first = ["BLOCK-SEQUENCE-START", "BLOCK-ENTRY", "ANCHOR =anc", scalar("value")]
        return first + entries(n // 2, "ALIAS =anc")[1:]
    if kind == "texts":
        return entries(n // 2, scalar("x" * 1024))
    if kind == "tags":
        return entries(n // 3, "TAG =!! =str", scalar("value#"))
    if kind == "directives":
        first = ["VERSION-DIRECTIVE 1.1", "TAG-DIRECTIVE =!e! =tag:example.org,2024:"]
        second = ["TAG-DIRECTIVE =!f! =tag:example.com,2024:", "DOCUMENT-START"]
        return repeated(n // 7, *first, *second, "TAG =!e! =thing", scalar("value"), "DOCUMENT-END")
    if kind == "empty":
        return ["BLOCK-MAPPING-START"] + repeated(n // 3, *pair) + ["BLOCK-END"]
    if kind == "pairs":
        flow_pair = ["KEY", scalar("k#"), "VALUE", scalar("v#"), "FLOW-ENTRY"]
        return ["FLOW-SEQUENCE-START"] + repeated(n // 5, *flow_pair) + ["FLOW-SEQUENCE-END"]
    if kind == "handles":
        return repeated(n, "TAG-DIRECTIVE =!h#! =tag:example.org,2024:") + ["DOCUMENT-START"]
    assert kind == "pieces", kind
    return entries(n // 6, "FLOW-SEQUENCE-START", scalar("1"), "FLOW-ENTRY", scalar("2"), "FLOW-SEQUENCE-END")


def marked(tokens):
    """Token lines, where each token has two characters of its own."""
    for number, token in enumerate(["STREAM-START utf8"] + tokens + ["STREAM-END"]):
        name, *fields = token.split()
        at = 3 * number
        yield " ".join([name, f"{at}:0:{at}", f"{at + 2}:0:{at + 2}"] + fields)


def lines_of(kind):
    """The token lines of a kind."""
    if kind == "mix":
        return list(stream([real_file(name) for name in FILES]))
    if kind == "services":
        return [" ".join(fields) for fields in real_file("compose")]
    return list(marked(tokens_of(kind, TOKENS)))


def program_lines():
    """The stream of the four files again and again, as often as PROGRAM_LINES have room."""
    files = [real_file(name) for name in FILES]
    return list(stream(files * ((PROGRAM_LINES - 2) // sum(len(tokens) for tokens in files))))


def write(directory, name, lines):
    with open(os.path.join(directory, name + ".tokens"), "w", encoding="ascii") as out:
        out.write("\n".join(lines) + "\n")


def main():
    if len(sys.argv) != 2:
        sys.exit("usage: lists.py DIR")
    for kind in KINDS:
        write(sys.argv[1], kind, lines_of(kind))
    for kind in GROWING:
        write(sys.argv[1], kind + "-few", marked(tokens_of(kind, TOKENS)))
        write(sys.argv[1], kind + "-many", marked(tokens_of(kind, 10 * TOKENS)))
    for kind in REPEATED:
        for length in LENGTHS:
            write(sys.argv[1], f"{kind}-{length}", marked(tokens_of(kind, length)))
    write(sys.argv[1], "program", program_lines())


if __name__ == "__main__":
    main()
