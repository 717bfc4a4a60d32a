"""Texts for bounds, and the comparison of what each door reads of them within bounds.

    bounds.py write DIR COUNT SEED            draws texts, and writes them as files of DIR; prints their names
    bounds.py read LOADER WHAT DEPTH NODES EXPANDED < NAMES
    bounds.py compare LOADER WHAT EVENTS FREE [DEPTH NODES EXPANDED BOUND]..

The second reads files by a loader of bindings/python, CLoader or Loader, and writes `events` or `nodes` in lines that begin as those
of events.c and bounds.rs. DEPTH, NODES and EXPANDED are numbers, or `-` if there is no such bound. EVENTS and FREE are what a door
reads without a bound, by events and by WHAT, and each BOUND what it reads by WHAT within the three bounds before it. What that should
be is made of the first two, of the tokens that PyYAML's loader of this name scans, and of what the headers say: one collection more
than DEPTH is an error at the token that opens it; one node, item or pair more than NODES, more than EXPANDED nodes with the aliases
written out, or an alias within its own node, is an error at the start of its event; and up to there all is as without. How many nodes
there are with aliases written out is counted anew at each event, by walks from the root.
Prints how many texts have too many levels, too many nodes, too many with aliases written out, an alias within its own node, and none
of these.

Run by clients.sh.
"""
import re
import sys

import yaml

import exact

LEAVES = ["a", "'b c'", "*z", "&x d", "&x", "!t e", "", "&x [f, *x]", "? g", "{h: i}", "[j, k, l]", "[m: n, ? o]", "{&x p: q, *x : r}"]
BLOCK, FLOW = ["- ", "? ", "k: "], ["[", "{k: ", "[p: ", "[q, ", "&z [", "{? "]
LEVELS = [1, 2, 3, 5, 8, 31, 32, 33, 40, 64, 70]


def nested(random_):
    """A document of collections in collections, of block style, of flow style, or of the second in the first."""
    kinds = random_.choice([BLOCK[:2], FLOW, BLOCK + FLOW])
    text, closes, anchors = "", [], 0
    for _ in range(random_.choice(LEVELS)):
        kind = random_.choice(FLOW if closes else kinds)
        if kind[0] in "[{&":
            closes.append("}" if "{" in kind else "]")
        text += kind.replace("z", "z%d" % anchors)
        anchors += "z" in kind
        if kind == "k: ":  # a line has one such key
            kinds = FLOW
    text += random_.choice(LEAVES)
    for close in reversed(closes):
        more = random_.choice(["", "", "", ", r", ", *z%d" % random_.randrange(anchors) if anchors else ""])
        text += more + close
    return text + "\n"


def bomb(random_):
    """Lists with anchors, which name those before them, seldom one that isn't whole, and seldom one anew."""
    lines, count = [], random_.randint(1, 8)
    for number in range(count):
        names = [random_.randrange(number + (random_.random() < .05)) if number else None for _ in range(random_.randint(0, 5))]
        parts = ["x" if name is None else f"*b{name}" for name in names]
        if random_.random() < .3:
            parts.append(random_.choice(["y", "&c%d z" % number, "{k: v}", "{k: *b0}" if number else "k: v", "[]"]))
        lines.append(f"- &b{number} [{', '.join(parts)}]")
    return "\n".join(lines) + "\n"


def unindented(random_):
    """Mappings whose sequences aren't indented, which have no entry of their own among the open collections."""
    lines, indent = [], 0
    for _ in range(random_.randint(1, 12)):
        lines.append(" " * indent + "k:")
        lines.append(" " * indent + "- a")
        if random_.random() < 0.5:
            indent += 2
            lines[-1] = " " * (indent - 2) + "- l: m"
    return "\n".join(lines) + "\n"


def drawn(random_):
    how = random_.random()
    if how < 0.5:
        return exact.drawn(random_)
    text = (nested if how < 0.7 else bomb if how < 0.85 else unindented)(random_)
    return "--- " * (text[0] not in "-?k") + text + (nested(random_) if random_.random() < 0.2 else "")


# ---- Reading, in lines that begin as those of events.c ----

STARTS, ENDS = ("SEQUENCE-START", "MAPPING-START"), ("SEQUENCE-END", "MAPPING-END")
ERRORS = {yaml.reader.ReaderError: 2, yaml.scanner.ScannerError: 3, yaml.parser.ParserError: 4, yaml.composer.ComposerError: 5}


def place(mark):
    return f"{mark.index}:{mark.line}:{mark.column}" if mark else "0:0:0"


def listed(root):
    """The nodes below a root, each once, in the order of their numbers, with the numbers of their children."""
    numbers, found, lines = {id(root): 0}, [root], []
    for node in found:  # which grows
        children = []
        if not isinstance(node, yaml.ScalarNode):
            children = [part for item in node.value for part in (item if isinstance(item, tuple) else (item,))]
        for child in children:
            if id(child) not in numbers:
                numbers[id(child)] = len(found)
                found.append(child)
        told = " ".join(str(numbers[id(child)]) for child in children)
        lines.append(f"{node.id} {place(node.start_mark)} {place(node.end_mark)} {told}")
    return lines


def told(failure):
    if not isinstance(failure, yaml.MarkedYAMLError):
        return f"error {ERRORS.get(type(failure), 0)} {failure}".replace("\n", " ")
    return (f"error {ERRORS[type(failure)]} {failure.problem} {place(failure.problem_mark)} {failure.context or '-'} "
            f"{place(failure.context_mark)}")


def read(loader, what, depth, nodes, expanded):
    import pokhvizi

    class Bounded(getattr(pokhvizi, loader)):
        max_depth, max_nodes, max_expanded = depth, nodes, expanded

    for name in sys.stdin.read().split("\n")[:-1]:
        print("file", name)
        try:
            with open(name, "rb") as file:
                text = file.read()
            if what == "events":
                for it in yaml.parse(text, Bounded):
                    kind = re.sub(r"(?<=[a-z])(?=[A-Z])", "-", type(it).__name__.replace("Event", "")).upper()
                    print(kind, place(it.start_mark), place(it.end_mark), f"={it.anchor}" if getattr(it, "anchor", None) else "-")
            else:
                for root in yaml.compose_all(text, Bounded):
                    print("DOCUMENT")
                    print("\n".join(listed(root)))
        except yaml.YAMLError as failure:
            print(told(failure))
        except RecursionError:
            print("error RecursionError")


# ---- What should be read ----

OPENS = (yaml.BlockSequenceStartToken, yaml.BlockMappingStartToken, yaml.FlowSequenceStartToken, yaml.FlowMappingStartToken)


def openers(name, scanner):
    """The places of the tokens that open a collection, by the places where they end and their kinds of collection."""
    found = {}
    try:
        with open(name, "rb") as file:
            for token in yaml.scan(file.read(), scanner):
                if isinstance(token, OPENS):
                    kind = STARTS["Mapping" in type(token).__name__]
                    found[kind, place(token.end_mark)] = place(token.start_mark)
    except yaml.YAMLError:
        pass
    return found


class Stops(Exception):
    """An error number, words and the place."""


class Document:
    """The lists of a document that is composed, and its anchors."""

    def __init__(self, nodes, expanded, sizes, loads):
        self.most = self.left = float("inf") if nodes is None else nodes
        self.expanded, self.sizes = expanded, sizes  # those of the document up to each event
        self.anchors, self.open, self.loads = set(), [], loads

    def take(self, kind, start, anchor):
        """Takes an event that is a node or an alias; returns whether it is no error of another kind, which ends a load."""
        is_known = anchor in self.anchors
        if self.loads and kind == "ALIAS" and not is_known:
            return False
        if self.open:
            entry = self.open[-1]
            if not (entry["is_mapping"] and entry["parts"] % 2) and entry["parts"] // (1 + entry["is_mapping"]) == self.most:
                raise Stops(5, "found too many nodes", start)
            entry["parts"] += 1
        if kind != "ALIAS":
            if self.left == 0:
                raise Stops(5, "found too many nodes", start)
            if self.loads and is_known:
                return False
            self.left -= 1
            self.anchors |= {anchor} - {"-"}
        size = None if self.expanded is None else next(self.sizes)
        if size == ENDLESS:
            raise Stops(5, "found an alias within the node that it names", start)
        if size is not None and size > self.expanded:
            raise Stops(5, "found too many nodes, with aliases written out", start)
        if kind in STARTS:
            self.open.append({"is_mapping": kind == STARTS[1], "parts": 0})
        return True


ENDLESS = float("inf")


def tree_of(node, children, known, within):
    """How many nodes there are from a node down, where one that several name counts for each."""
    if node in within:
        return ENDLESS
    if node not in known:
        known[node] = 1 + sum(tree_of(child, children, known, within | {node}) for child in children[node])
    return known[node]


def sizes_of(events):
    """How many nodes a document has with its aliases written out, at each node and alias, for each document of a text. An anchor names
    the last node that has it, and an alias without one is none: a load ends there."""
    documents, children, carriers, open_ = [], [], {}, []
    for line in events:
        kind, *words = line.split()
        if kind in ("DOCUMENT-START", "error"):
            documents.append([])
            children, carriers, open_ = [], {}, []
        elif kind in ENDS:
            open_.pop()
        elif kind in ("ALIAS", "SCALAR", *STARTS):
            anchor, node = words[2], len(children)
            if kind == "ALIAS":
                node = carriers.get(anchor)
            else:
                children.append([])
                carriers[anchor] = node
            if open_ and node is not None:
                children[open_[-1]].append(node)
            if kind in STARTS:
                open_.append(node)
            documents[-1].append(tree_of(0, children, {}, frozenset()) if children else 0)
    return documents


def wanted(events, free, opens, sizes, bounds, loads):
    """The lines that a text gives within bounds; `free` are those without, of documents if they are loaded. A bound on nodes is the
    composer's error of a load, and else the parser's."""
    collections, document, ended, given = [], None, 0, []
    depth, nodes, expanded = bounds
    try:
        for line in events:
            words = line.split()
            if words[0] == "error":
                return free
            kind, start, end, anchor = words[:4] if len(words) > 3 else [*words, "-"]
            if kind in STARTS:
                at = opens.get((kind, end))
                if at is not None and sum(collections) == depth:
                    raise Stops(4, "found too many levels", at)
                collections.append(at is not None)
            elif kind in ENDS:
                collections.pop()
            if kind == "DOCUMENT-START":
                document = Document(nodes, expanded, iter(sizes[ended]), loads)
            elif kind == "DOCUMENT-END":
                ended += 1
            elif kind in ENDS:
                document.open.pop()
            elif kind in ("ALIAS", "SCALAR", *STARTS) and not document.take(kind, start, anchor) and loads:
                return free
            given.append(line)
    except Stops as stop:
        number, *words = stop.args
        if loads:
            places = [number for number, line in enumerate(free) if line.startswith(("DOCUMENT", "error"))] + [len(free)]
            given = free[:places[ended]]
        return given + ["error %d %s %s - 0:0:0" % (number if loads else 4, *words)]
    return free


def blocks(name):
    """The lines of each file, in words."""
    return {file: [" ".join(line.split()) for line in lines] for file, lines in exact.blocks(name).items()}


def cut(lines):
    """Lines of which an error has no more than its number, words and places."""
    return [" ".join(line.split()[:-2]) if line.startswith("error") and line.split()[-1].isdigit() else line for line in lines]


def compare(scanner, what, events, free, *bounded):
    events, free = blocks(events), blocks(free)
    opens = {name: openers(name, getattr(yaml, scanner)) for name in free}
    sizes = {name: sizes_of(lines) for name, lines in events.items()}
    counts = {"too many levels": 0, "too many nodes ": 0, "aliases written out": 0, "within the node": 0, "": 0}
    wrong = [] if list(events) == list(free) else ["other files"]
    for *bounds, bound in zip(*(bounded[place::4] for place in range(4))):
        found = blocks(bound)
        if list(found) != list(free):
            wrong.append(f"{bound}: other files")
        for name, lines in found.items():
            here = wanted(events[name], cut(free[name]), opens[name], sizes[name], map(number, bounds), what == "nodes")
            lines = cut(lines)
            if lines != here:
                at = next((n for n, pair in enumerate(zip(lines, here)) if pair[0] != pair[1]), min(len(lines), len(here)))
                wrong.append(f"{name} within {' '.join(bounds)}: {lines[at:at + 1]}, wanted was {here[at:at + 1]}")
            counts[next(word for word in counts if word in (here or [""])[-1])] += 1
    if wrong:
        print("\n".join(wrong[:10]))
        print(f"{len(wrong)} wrong")
        return 1
    print(*counts.values())
    return 0


def number(word):
    """The bound of a word; the largest number of 64 bits with a sign is none."""
    return None if word in ("-", str((1 << 63) - 1)) else int(word)


if __name__ == "__main__":
    command, *words = sys.argv[1:]
    if command == "write":
        exact.write(words[0], int(words[1]), words[2], drawn)
    elif command == "read":
        read(*words[:2], *(None if word == "-" else int(word) for word in words[2:]))
    else:
        sys.exit(compare(*words))
