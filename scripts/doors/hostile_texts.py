#!/usr/bin/env python3
"""Hostile texts through each door, with its bounds and without, with this project's own grammar and exactly with libyaml's: each
ends in a result or in a named error, and in none other than hostile_texts.txt says.

    hostile_texts.py [--all] [--table] [--turned] DOOR=PATH..

The doors, of which those are tried that have a path:

    yaml=PROGRAM              examples/yaml.c, over the steps; without bounds
    libyaml=FOLDER            libyaml-0.so.2 in that folder, under a program over libyaml, which `events=PROGRAM` names (clients/events.c)
    c_loader=FOLDER           CSafeLoader of the package in that folder
    loader=FOLDER             SafeLoader of that package
    rust=PROGRAM              clients/bounds.rs over bindings/rust; with its feature `fixes`; `rust_exact=PROGRAM` is the same without it
    yamltokens=PROGRAM        by examples/yaml_lines.py and PyYAML's scanner; its bound on tokens can't be set

Prints each case with its time and the peak of its memory, which no check looks at; with --table also those of loads,
in the lines of the table of bench/results/hostile.md. A case may take 60 seconds of a processor, and ten times as
many of the clock; those that may take more are tried with --all alone, and have 300. With --turned each wants another outcome, so all have to be wrong. The status is 0 if each
outcome is the one that is listed, 2 if GNU time lacks.

Run by clients.sh. Needs GNU time (Debian: time).
"""
import fnmatch
import os
import re
import resource
import subprocess
import sys
import tempfile

HERE = os.path.dirname(os.path.realpath(__file__))
TOP = os.path.dirname(os.path.dirname(HERE))
TIME = "/usr/bin/time"
SECONDS, MANY_SECONDS = 60, 300
NODES, EXPANDED = 100000, 1000000


def bomb(levels, width):
    """Lists with anchors, each of which names the one before so many times."""
    lists = ["- &a0 [%s]\n" % ", ".join("x" * width)]
    return "".join(lists + ["- &a%d [%s]\n" % (n, ", ".join(["*a%d" % (n - 1)] * width)) for n in range(1, levels)])


TEXTS = {
    "few_brackets": "[" * 2000,
    "brackets": "[" * 100000,
    "entries": "- " * 100000,
    "no_key": ": x\n",
    "bomb": bomb(10, 10),
    "within_itself": "&a [x, *a]\n",
    "no_anchor": "[*a, *a, &b x, &b [y, z], *b]\n",
    "nodes": "- a\n" * 1000000,
    "anchors": "".join("- &a%d x\n- *a%d\n" % (n, n) for n in range(50000)),
    "directives": "".join("%%TAG !h%d! tag:example.org,2000:%d/\n" % (n, n) for n in range(16000)) + "--- !h7!x a\n",
    "cut": "- a: [b, {c: d}, 'e'\n",
    "no_utf8": b"- a\n- \xff\xfe\n",
}
# libyaml's scanner takes a minute for the first, and PyYAML's in Python for the others. For the last it takes as long for a fifth.
SLOW = {("brackets", "free", door) for door in ("yaml", "libyaml", "c_loader", "yamltokens")} | {
    ("nodes", "free", "loader"), ("nodes", "within", "loader"), ("entries", "free", "loader"), ("anchors", "free", "loader")}
NEVER = {("brackets", "free", "loader")}


class Door:
    """A way in: its name, and what reads a file by it."""

    bounded = exact = False
    depth = 1000
    statuses = (0,)

    def __init__(self, name, path, paths):
        self.name, self.path, self.paths = name, path, paths

    def run(self, what, file, bounds, exact):
        """Returns a command, what it has in the environment, and its standard input."""
        raise NotImplementedError

    def ways(self):
        return [(how, exact) for how in ("free", "within")[:1 + self.bounded] for exact in (False, True)[:1 + self.exact]]


class Lines(Door):
    """Lines of events or nodes, and the lines of a fault."""

    statuses = 0, 1, 3
    FAULT = re.compile(r"FAULT (\w+) \d+:(\d+):(\d+) (.*)")

    def told(self, lines):
        for line in lines[-2:]:
            fault = self.FAULT.fullmatch(line)
            if fault:
                return "%s %s:%s %s" % fault.groups()
        return sum(line[:1].isdigit() for line in lines) if self.what == "nodes" else len(lines)


class Steps(Lines):
    def run(self, what, file, bounds, exact):
        self.what = what
        return [self.path, what, file], {}, None


class Yamltokens(Lines):
    def run(self, what, file, bounds, exact):
        self.what = what
        return [sys.executable, TOP + "/examples/yaml_lines.py", what, file, "--program", self.path], {}, None


class Counts(Door):
    """A line for an error, with libyaml's number for who found it, and a line with the count."""

    bounded = exact = True
    ERROR = re.compile(r"error (\d) (.*?) \d+:(\d+):(\d+) .* \d+:\d+:\d+ (\d+) -?\d+")
    FINDERS = {"1": "memory", "2": "reader", "3": "scanner", "4": "parser", "5": "composer"}

    def told(self, lines):
        error = self.ERROR.fullmatch(lines[0])
        if not error:
            return int(lines[-1].split()[0])
        number, words, line, column, offset = error.groups()
        place = offset if number == "2" else "%s:%s" % (line, column)
        return "%s %s %s" % (self.FINDERS[number], place, words)


class Libyaml(Counts):
    def run(self, what, file, bounds, exact):
        names = "POKHVIZI_MAX_DEPTH", "POKHVIZI_MAX_NODES", "POKHVIZI_MAX_EXPANDED"
        words = {name: str(bound) for name, bound in zip(names, bounds) if bound}
        words.update(POKHVIZI_FIXES="0" if exact else "1", LD_LIBRARY_PATH=self.path)
        words = ["%s=%s" % pair for pair in words.items()]
        return ["env", *words, self.paths["events"], {"events": "memory", "nodes": "loads"}[what]], {}, file


class Rust(Counts):
    def run(self, what, file, bounds, exact):
        path = self.paths["rust_exact"] if exact else self.path
        return [path, "count_" + what, *(str(bound) if bound else "-" for bound in bounds), file], {}, None


class Loader(Door):
    """A loader of bindings/python, by this script."""

    bounded = True

    def run(self, what, file, bounds, exact):
        words = [str(bound) for bound in bounds]
        words = [sys.executable, os.path.realpath(__file__), "read", self.KIND, what, file, str(int(exact)), *words]
        return words, {"PYTHONPATH": self.path}, None

    def told(self, lines):
        return int(lines[-1]) if lines[-1].isdigit() else lines[-1]


class InC(Loader):
    exact, KIND = True, "CSafeLoader"


class InPython(Loader):
    depth, KIND = 300, "SafeLoader"  # PyYAML's composer calls itself


DOORS = {"yaml": Steps, "libyaml": Libyaml, "c_loader": InC, "loader": InPython, "rust": Rust, "yamltokens": Yamltokens}
FINDERS = {"ReaderError": "reader", "ScannerError": "scanner", "ParserError": "parser", "ComposerError": "composer"}


def read(kind, what, file, exact, *bounds):
    """Prints how many events or nodes a loader gives of a file, or its error."""
    import pokhvizi
    import yaml

    class Bounded(getattr(pokhvizi, kind)):
        max_depth, max_nodes, max_expanded = (int(bound) if bound else None for bound in bounds)
        nodes = 0

    if kind == "CSafeLoader":
        Bounded.fixes = exact != "1"
    with open(file, "rb") as opened:
        text = opened.read()
    try:
        if what == "events":
            print(sum(1 for _ in yaml.parse(text, Bounded)))
        else:
            print(sum(count_of(root) for root in yaml.compose_all(text, Bounded)))
    except yaml.reader.ReaderError as failure:
        print("reader %d %s" % (failure.position, failure.reason))
    except yaml.MarkedYAMLError as failure:
        mark = failure.problem_mark
        print("%s %d:%d %s" % (FINDERS[type(failure).__name__], mark.line, mark.column, failure.problem))
    except RecursionError:
        print("RecursionError")


def count_of(root):
    """How many nodes there are from a root down, each once."""
    seen, left = {id(root)}, [root]
    for node in left:  # which grows
        if type(node.value) is list:
            for child in node.value:
                for part in child if type(child) is tuple else (child,):
                    if id(part) not in seen:
                        seen.add(id(part))
                        left.append(part)
    return len(seen)


# ---- Cases ----

class Rows:
    """The outcomes that are wanted: the first row that a case matches has its own."""

    def __init__(self, file):
        self.rows, self.used = [], set()
        with open(file, encoding="utf-8") as lines:
            for line in lines:
                if line.strip() and not line.startswith("#"):
                    *words, outcome = line.rstrip("\n").split(None, 4)
                    self.rows.append((words, outcome))

    def of(self, *case):
        for number, (words, outcome) in enumerate(self.rows):
            if all(any(fnmatch.fnmatchcase(part, word) for word in words_.split(",")) for part, words_ in zip(case, words)):
                self.used.add(number)
                return outcome
        return "no row"

    def unused(self):
        return [" ".join(self.rows[number][0]) for number in range(len(self.rows)) if number not in self.used]


def outcome_of(door, what, file, bounds, exact, most, figures):
    """What a case ends in, the seconds that it takes of a processor, and its memory in KB."""
    command, more, name = door.run(what, file, bounds, exact)
    timed = [TIME, "-q", "-f", "%U %S %M", "-o", figures, "timeout", "-k", "1", str(10 * most), *command]
    with open(name or os.devnull, "rb") as into:
        run = subprocess.run(timed, stdin=into, env=dict(os.environ, **more), stdout=subprocess.PIPE, stderr=subprocess.PIPE,
                             preexec_fn=lambda: resource.setrlimit(resource.RLIMIT_CPU, (most, most)))
    with open(figures, encoding="ascii") as said:
        user, system, memory = map(float, said.read().split()[-3:])
    lines = run.stdout.decode(errors="replace").splitlines()
    told = "more than %d seconds" % most if run.returncode in (124, 137) else None
    if told is None and (run.returncode not in door.statuses or not lines or b"Traceback" in run.stderr):
        told = "status %d: %s" % (run.returncode, run.stderr[-300:].decode(errors="replace"))
    told = door.told(lines) if told is None else told
    return "%d %s" % (told, what) if isinstance(told, int) else told, user + system, memory


def cases(doors, everything):
    """Each text at each door in each way: whether it is read by events, with which bounds, and whether exactly."""
    for text in TEXTS:
        for door in doors:
            for how, exact in door.ways():
                case = text, how, door.name
                if case not in NEVER and (everything or case not in SLOW):
                    for what in ("events", "nodes"):
                        yield text, door, what, how, exact


def shown(seconds, memory):
    return "%.2f s, %d MB" % (seconds, memory / 1024)


def table(figures, doors):
    """Rows of a page: the time and the memory of a load at each door, without its bounds and within them."""
    for text in TEXTS:
        cells = []
        for door in doors:
            found = [figures[text, door.name, how] for how in ("free", "within") if (text, door.name, how) in figures]
            cells.append("; ".join(shown(*pair) for pair in found) or "-")
        print("| %s | %s |" % (text, " | ".join(cells)))


def main(words):
    options = {word for word in words if word.startswith("--")}
    paths = dict(word.partition("=")[::2] for word in words if not word.startswith("--"))
    if options - {"--all", "--table", "--turned"} or not set(paths) & set(DOORS) or set(paths) - set(DOORS) - {"events", "rust_exact"}:
        sys.stderr.write("usage: hostile_texts.py [--all] [--table] [--turned] DOOR=PATH..; the first lines name the doors\n")
        return 2
    if not os.access(TIME, os.X_OK):
        sys.stderr.write("hostile_texts.py: no GNU time %s\n" % TIME)
        return 2
    doors = [kind(name, paths[name], paths) for name, kind in DOORS.items() if name in paths]
    rows, figures, count, wrong = Rows(HERE + "/hostile_texts.txt"), {}, 0, 0
    with tempfile.TemporaryDirectory() as folder:
        for name, text in TEXTS.items():
            with open("%s/%s" % (folder, name), "wb") as file:
                file.write(text if isinstance(text, bytes) else text.encode())
        for text, door, what, how, exact in cases(doors, "--all" in options):
            bounds = (door.depth, NODES, EXPANDED) if how == "within" else ("", "", "")
            most = MANY_SECONDS if (text, how, door.name) in SLOW else SECONDS
            found, seconds, memory = outcome_of(door, what, "%s/%s" % (folder, text), bounds, exact, most, folder + "/figures")
            way = how + ("_exact" if exact else "")
            wanted = rows.of(text, what, way, door.name)
            count += 1
            print(text, what, way, door.name, found, "(%s)" % shown(seconds, memory), flush=True)
            if (found == wanted) is ("--turned" in options):
                wrong += 1
                print("wrong: wanted was", wanted)
            if what == "nodes":
                figures.setdefault((text, door.name, way), (seconds, memory))
    for text, how, name in SLOW:  # whose rows are none's, if they are left out
        for what in ("events", "nodes"):
            rows.of(text, what, how, name)
    if len(doors) == len(DOORS) and rows.unused():
        wrong += 1
        print("wrong: no case has the rows", rows.unused())
    if "--table" in options:
        table(figures, doors)
    print("%d cases at %d doors, %d wrong" % (count, len(doors), wrong))
    return wrong != 0


if __name__ == "__main__":
    if sys.argv[1:2] == ["read"]:
        read(*sys.argv[2:])
    else:
        sys.exit(main(sys.argv[1:]))
