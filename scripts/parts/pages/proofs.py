"""docs/proofs.txt: which file of proofs carries which clause: for each public function with parts of its proof written
by hand (`Answers.antt`, `Invariants.antt`, `Proof.antt`, or lemmas that an attribute hands to the search) its clauses by
the files that they cite; "all" if the parts are of the whole contract. Laws stand together by their file of src/laws,
functions that aren't public in one line. A file of the crate that only other files cite is counted in its folder. A file
of another crate has that crate's name before it."""
import re
import sys
from collections import Counter, defaultdict

from sources import TOP, imports, sources

HEAD = """# Proofs by hand

`python3 scripts/pages.py` makes this page: what the prover's search does not find alone, crate by crate. *Loops* stands for invariants and measures, *calls* for what a call requires, *alone* for a proof that cites no file; a number counts functions or files.
"""
TABLE = """
## `{crate}`

| function | files of `proofs` that its clauses cite | files beneath |
|---|---|---|
"""
USING = re.compile(r"#(!?)\[tactic\([^\]]*using\(([^)]*)\)")
FN = re.compile(r"( {4})?(?:(pub(?:\([^)]*\))?) )?(?:extern \"C\" )?fn (\w+)")
ENSURES = re.compile(r" +ensures (\w+) \{")
IMPL = re.compile(r"impl(?:<.*?>)? (?:(.+?) for )?(\w+)")
TYPE = re.compile(r"pub (?:struct|enum|trait) (\w+)", re.M)
CLAUSE = re.compile(r"clause-(\w+)")
BY_HAND = ("Answers", "Invariants", "Proof")
NAME = re.compile(r"(?<![\w.-])[^\W\d][\w≢-]*(?![\w≢-]| = )")  # no field after a point, and none that a record gives a value
RECORD = re.compile(r"^\w+[^=]*?=\s+record \{(.*)\}\s*\Z", re.M | re.S)
WHOLE = ""
WORDS = {WHOLE: "all", "loops": "*loops*", "others": "*calls*"}
LAWS = "laws"


def module_of(path, crate):
    """A file of proofs as imports name it."""
    return ".".join([crate.name, *path.relative_to(crate).with_suffix("").parts])


def modules(text):
    """Each imported name, or alias, with its module."""
    return {name: module.removeprefix("Rattle.") for name, (module, _) in imports(text).items()}


def is_lemmas(module):
    """Whether a module is a file of proofs, and not what a check makes of a function (`Goals`, `Given`)."""
    parts = module.split(".")
    return len(parts) > 2 and parts[1] == "proofs" and parts[0] != "std" and not {"Goals", "Given"} & set(parts)


def definitions(text):
    """The definitions at the margin of a file of proofs, each with its text."""
    found, name = {}, None
    for line in text.splitlines():
        if line.startswith(("use ", "--")) or not line.strip():
            name = None if line.strip() else name
            continue
        if not line[0].isspace() and line[0] not in "})":
            words = line.split(" ")
            name = next((word for word in words if word not in ("abbrev", "pub", "data", "record")), name)
        if name:
            found[name] = found.get(name, "") + line + "\n"
    return found


class Crate:
    """The functions of a crate, and what their proofs cite."""

    def __init__(self, folder):
        self.folder = folder
        self.functions, self.lemmas, self.named = {}, defaultdict(list), defaultdict(set)
        self.cites, self.traits = {}, {""}
        public = {name for path in sources(self.folder.name) for name in TYPE.findall(path.read_text())}
        for path in sources(self.folder.name):
            self.read(path, public)
        for path in folder.glob("proofs/**/*.antt"):
            self.cites[module_of(path, folder)] = {module for module in modules(path.read_text()).values() if is_lemmas(module)}

    def read(self, path, public):
        """Which functions of a file are public, and the lemmas that its attributes hand out."""
        place = ".".join(path.relative_to(self.folder / "src").with_suffix("").parts)
        owner, name, is_trait, handed, everywhere = None, None, False, [], []
        for line in path.read_text().splitlines():
            if found := USING.search(line):
                lemmas = [name.strip().replace("::", ".").replace("crate", self.folder.name, 1) for name in found[2].split(",")]
                (everywhere if found[1] else handed).extend(name.rpartition(".")[0] for name in lemmas)
            elif found := IMPL.match(line):
                owner, is_trait = found[2], bool(found[1])
                self.traits.add(found[1] or "")
            elif found := FN.match(line):
                name = (owner if found[1] else None, found[3])
                is_public = (found[2] == "pub" or is_trait and bool(found[1])) and (not found[1] or owner in public)
                self.functions.setdefault(name, (is_public, place))
                for module in handed + everywhere:
                    self.lemmas[name].append((WHOLE, module))
                handed = []
            elif found := ENSURES.match(line):
                self.named[name].add(found[1])

    def function_of(self, folder):
        """The function that a folder of proofs is of."""
        *place, name = folder.relative_to(self.folder / "proofs").parts
        owners = {owner for owner, other in self.functions if other == name}
        for part in reversed(place):
            for owner in owners - {None}:
                if part.lower() in (f"{owner}{trait}".lower() for trait in self.traits):
                    return (owner, name)
        if (None, name) in self.functions:
            return (None, name)
        sys.exit(f"{folder.relative_to(TOP)}: no such function in src")

    def by_hand(self):
        """Each function with parts by hand: its clauses, each with a module that it cites or none."""
        found = defaultdict(list, {name: list(pairs) for name, pairs in self.lemmas.items()})
        for kind in BY_HAND:
            for path in sorted(self.folder.glob(f"proofs/**/{kind}.antt")):
                name = self.function_of(path.parent)
                found[name] += clauses_of(path, kind, self.named[name])
        return found

    def beneath(self, modules):
        """What files of proofs of this crate these cite, and so on, without these."""
        seen, waiting = set(modules), list(modules)
        while waiting:
            for module in self.cites.get(waiting.pop(), ()):
                if module in self.cites and module not in seen:
                    seen.add(module)
                    waiting.append(module)
        return seen - set(modules)


def cited(text, named, defined):
    """The modules that a piece of a file of proofs cites, by itself or by a definition of that file; None if it cites none."""
    seen, waiting, modules = set(), [text], set()
    while waiting:
        for word in NAME.findall(waiting.pop()):
            modules |= {named[word]} if word in named and is_lemmas(named[word]) else set()
            if word in defined and word not in seen:
                seen.add(word)
                waiting.append(defined[word])
    return modules or {None}


def fields_of(body):
    """The fields of a definition that is a record: each with its text; none of another one."""
    found = RECORD.search(body)
    depth, field, fields = 0, "", []
    for sign in found[1] if found else "":
        depth += (sign in "({[") - (sign in ")}]")
        if sign == ";" and depth == 0:
            fields.append(field)
            field = ""
        else:
            field += sign
    fields.append(field)
    return [tuple(part.strip() for part in one.split(" = ", 1)) for one in fields if " = " in one]


def clauses_of(path, kind, clauses):
    """The clauses that a file answers, each with a module that its answer cites, or with none; `clauses` are the function's."""
    text = path.read_text()
    named, defined = modules(text), definitions(text)
    for name, body in defined.items():
        if kind == "Answers" and f": goal.{name}" not in body:
            continue
        clause = CLAUSE.search(name)
        what = clause[1] if clause else WHOLE if name.startswith("returns") else "loops" if name.startswith("loop") else "others"
        others = {other: piece for other, piece in defined.items() if other != name}
        parts = {field: cited(value, named, others) for field, value in fields_of(body)} if what == WHOLE else {}
        if len(set(map(frozenset, parts.values()))) < 2 or not clauses.issuperset(parts):
            parts = {"loops" if kind == "Invariants" else what: cited(body, named, others)}
        yield from ((part, module) for part, modules in parts.items() for module in modules)


def short(module, crate):
    if module is None:
        return None
    owner, _, *parts = module.split(".")
    if owner == crate.folder.name:
        return "/".join(parts)
    return "::".join([owner, *(part for part in parts if part != "exported")])


def by_files(pairs, crate):
    """The files that a function's clauses cite, each set of them with its clauses; none for those that cite no file."""
    files, groups = defaultdict(set), defaultdict(list)
    for clause, module in pairs:
        files[clause].add(short(module, crate))
    for clause, cited in files.items():
        groups[tuple(sorted(cited - {None}))].append(clause)
    return groups


def shown_groups(groups):
    return "; ".join(", ".join(f"`{file}`" for file in cited or ()) + (": " if cited else "*alone*: ") + ", ".join(said)
                     for cited, said in sorted(groups.items(), key=lambda group: (not group[0], group[0])))


def shown_clauses(pairs, crate):
    return shown_groups({cited: [WORDS.get(clause, f"`{clause}`") for clause in clauses] for cited, clauses in by_files(pairs, crate).items()})


def shown_laws(functions, crate):
    """The same of the laws of a file: each with its clauses, unless they cite the same files."""
    groups = defaultdict(list)
    for (_, name), pairs in sorted(functions.items(), key=str):
        found = by_files(pairs, crate)
        for cited, clauses in found.items():
            said = ", ".join(WORDS.get(clause, f"`{clause}`") for clause in clauses)
            groups[cited].append(f"`{name}`" + (f" ({said})" if len(found) > 1 else ""))
    return shown_groups(groups)


def shown_beneath(modules, crate):
    folders = Counter()
    for module in crate.beneath([module for module in modules if module]):
        parts = module.split(".")[2:]
        folders["/".join(parts[:-1])] += 1
    return ", ".join(f"`{folder}` {count}" if folder else str(count) for folder, count in sorted(folders.items()))


def rows(crate):
    """The lines of a crate's table."""
    alone, laws, inner = {}, defaultdict(dict), {}
    for name, pairs in crate.by_hand().items():
        is_public, place = crate.functions[name]
        if not is_public:
            inner[name] = pairs
        elif place.split(".")[0] == LAWS:
            laws[place][name] = pairs
        else:
            alone[name] = pairs
    for name, pairs in sorted(alone.items(), key=lambda one: (crate.functions[one[0]][1], str(one[0]))):
        yield line("`" + "::".join(filter(None, name)) + "`", shown_clauses(pairs, crate), [module for _, module in pairs], crate)
    for place, functions in sorted(laws.items()):
        yield line(f"`{place.replace('.', '::')}`", shown_laws(functions, crate), [module for pairs in functions.values() for _, module in pairs], crate)
    if inner:
        files = Counter(short(module, crate) for pairs in inner.values() for module in {module for _, module in pairs if module})
        said = ", ".join(f"`{file}` {count}" for file, count in sorted(files.items())) or "*alone*"
        yield line(f"{len(inner)} not public", said, [module for pairs in inner.values() for _, module in pairs], crate)


def line(name, said, modules, crate):
    return f"| {name} | {said} | {shown_beneath(modules, crate)} |\n"


def make(pages):
    tables = ((folder.name, "".join(rows(Crate(folder)))) for folder in sorted(TOP.glob("crates/*/")))
    pages[TOP / "docs/proofs.txt"] = HEAD + "".join(TABLE.format(crate=crate) + table for crate, table in tables if table)
    return []
