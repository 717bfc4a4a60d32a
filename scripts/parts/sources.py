"""What several scripts read of the sources: crates.txt, re-exports, and the definitions of specs/."""
import re
from pathlib import Path

TOP = Path(__file__).resolve().parents[2]
WORD = re.compile(r"[^\s(){}\[\],;]+")
REEXPORT = re.compile(r"^pub use ([\w:]+?)(?:::\{([^}]*)\})?(?: as (\w+))?;", re.M)
USE = re.compile(r"^(?:ghost |pub )*use (Rattle\.[\w.]+?)(?:\.\{(.*)\})?(?: as (\w+))?;?$")
HEAD = re.compile(r"^(?:(?:abbrev|unfoldable|pub|infix\w*) )*(?:(?:record|data) )?(mutual|[^\s:{(]+)")
MEMBER = re.compile(r"^(?:pub )?(?:(?:data|record) )?([^\s:→]+)\s*:?\s")


def layers():
    """The title of each layer of crates.txt, and its crates, each with those that its line lists."""
    found = []
    for line in (TOP / "crates.txt").read_text().splitlines():
        if line.startswith("#"):
            found.append((re.match(r"# ([^:.]*)", line)[1], {}))
        elif ":" in line:
            name, _, listed = line.partition(":")
            found[-1][1][name.split()[0]] = listed.split()
    return [(title, layer) for title, layer in found if layer]


CRATES = {name: listed for _, layer in layers() for name, listed in layer.items()}


def sources(crate):
    """The files of a crate's code."""
    return sorted((TOP / "crates" / crate / "src").rglob("*.rt"))


def reexports(path):
    """What a file of code re-exports: the path, as words, the name there, and the name here."""
    for where, names, alias in REEXPORT.findall(path.read_text()):
        *first, last = where.split("::")
        if not names:
            yield first, last, alias or last
        for name in filter(None, map(str.strip, names.split(","))):
            yield [*first, last], name.split(" as ")[0], name.split(" as ")[-1]


def imports(text):
    """For each name that a file imports, its module and its name there; for a module under an alias, no name."""
    found = {}
    for module, names, alias in (match.groups() for match in map(USE.match, text.split("\n")) if match):
        for item in (names or "").split(","):
            name, _, renamed = item.strip().partition(" as ")
            if name:
                found[renamed or name] = module, name
        if names is None:
            found[alias or module.split(".")[-1]] = module, None
    return found


class Definitions:
    """The definitions of a file of specs: their lines, with the comment above, and which of them has which name."""

    def __init__(self, path):
        self.imports = imports(path.read_text())
        self.blocks, self.names, comment = [], {}, []
        self.has_members = False
        for line in path.read_text().split("\n"):
            if line.startswith("--"):
                comment.append(line)
            elif line and not re.match(r"(pub )?(use|mod) ", line):
                self.add(line, comment)
                comment = []

    def add(self, line, comment):
        """Puts a line into the block that it belongs to, with the comment above it."""
        if not line.startswith(" "):
            name = HEAD.match(line).group(1)
            self.has_members = self.has_members and name in self.names or re.search(r"^(pub )?data |mutual", line)
            if self.names.get(name) != len(self.blocks) - 1 or name == "mutual":
                self.blocks.append([])
                self.names.setdefault(name, len(self.blocks) - 1)
        elif self.has_members and (member := MEMBER.match(line.strip())):
            self.names.setdefault(member.group(1), len(self.blocks) - 1)
        self.blocks[-1] += comment + [line]

    def cited(self, words, module):
        """Where the words of a text lead: to names of this file, or to imported ones."""
        for word in words:
            first, _, rest = word.partition(".")
            if word in self.names:
                yield module, word
            elif word in self.imports:
                yield self.imports[word]
            elif rest and first in self.imports:
                yield self.imports[first][0], self.imports[first][1] or rest.split(".")[0]


def read_specs():
    """The definitions of each file of specs, by its module."""
    files = {}
    for path in TOP.glob("crates/*/specs/**/*.antt"):
        crate, _, *rest = path.relative_to(TOP / "crates").with_suffix("").parts
        files[".".join(["Rattle", crate, "specs", *rest])] = Definitions(path)
    return files


def words_of(text):
    return {word.strip(".,") for word in WORD.findall(text)}


def closure(files, seeds):
    """The blocks that these names stand for, and all that they cite."""
    seen, left = set(), list(seeds)
    while left:
        module, name = left.pop()
        file = files.get(module)
        if file is None or name not in file.names or (module, file.names[name]) in seen:
            continue
        block = file.names[name]
        seen.add((module, block))
        text = "\n".join(line for line in file.blocks[block] if not line.lstrip().startswith("--"))
        left += file.cited(words_of(text), module)
    return seen
