"""docs/surface.txt: every public item that a user of the libraries can name; first those that a program uses first, with
what the doc of each says first if that has more than a few words and no public field or variant shows it; then the
others, by their crates; each with its signature, its fields or its variants. docs/laws.txt: every law, with its comment,
which is its statement, and the names of its clauses. The examples and the programs of test vectors are left out.

It can't be made if an item has no doc, one is `pub` for its crate alone, or docs/PROVED.md doesn't name a law (those of
`vectors` and `productions` by their module)."""
import re
import textwrap

from sources import CRATES, TOP, reexports, sources

PAGE = TOP / "docs" / "surface.txt"
CLAUSE = re.compile(r"^ +ensures (\w+) \{", re.M)
ITEM = re.compile(r"pub (?:extern \"C\" )?(fn|struct|enum|trait|type|const) (\w+)")
METHOD = re.compile(r"    (pub )?fn (\w+)")
IMPL = re.compile(r"impl(<.*?>)? (?:(.+?) for )?(\w+)")
LAWS = re.compile(r"(?:laws|vectors)::")
OF_ENUM = re.compile(r"(order|equality|hash)_of_")
NAMED = (
    "unsafe_libyaml", "token_lines", "token_limits", "yaml_path", "yaml_expansion", "yaml_keys", "yaml_bounds", "libyaml_composer", "token_steps",
    "document_steps", "document_sizes", "pokhvizi_c",
)
INNER = re.compile(r"putting::")  # a module for the crates above alone
EXAMPLES = {"example_theorems"}
WIDTH = 110

HEAD = """Every public item. `python3 scripts/pages.py` makes this list.

Depend on `unsafe_libyaml`, which re-exports the crates of events, documents and loads, and on `token_lines`, which re-exports
those of lines. `fn T::f` is a method or a function of the type `T`; a struct shown without fields has private ones; those of
`steps_t` are the library's, of types that no program names. Comment and contract in the source say what each item does,
CALLING.md shows how to use it. The laws are in laws.txt; items that only crates above use are left out.
"""

LAWS_HEAD = """Every law. `python3 scripts/pages.py` makes this list.

A law is a function that does nothing and whose contract is a theorem. Its comment is its statement; the names of its
clauses, if they have some, stand after its name. PROVED.md says which belong together, and has those of the enums' order,
equality and hashes.
"""

FIRST = [
    (
        "Tokens, and where they come from",
        """
        yaml_token_t yaml_token_t::new unnamed_yaml_token_t_data unnamed_yaml_token_t_data_scalar yaml_mark_t
        yaml_list_source_t::from yaml_list_source_t::new yaml_line_source_t::new
        yaml_scanner_source_t::new yaml_scanner_t::scan yaml_token_source_t::next_token
        yaml_source_fault_t::scanner_error
        """,
    ),
    (
        "Events",
        """
        yaml_parser_initialize yaml_parser_t yaml_parser_t::iterator yaml_parser_parse yaml_parser_parse_into
        yaml_parser_parse_all yaml_run_t yaml_parser_t::prefix yaml_parser_t_prefix yaml_parser_delete
        yaml_push_parser_t::new yaml_push_parser_t::push yaml_push_parser_t::prefix yaml_event_t
        unnamed_yaml_event_t_data unnamed_yaml_event_t_data_scalar yaml_event_t::type_ yaml_event_t::anchor
        """,
    ),
    (
        "Documents, and text_at of yaml_path",
        """
        yaml_parser_documents yaml_parser_documents_t::iterator yaml_parser_load yaml_parser_load_all
        yaml_parser_set_max_entries yaml_document_t yaml_document_t::root yaml_document_t::items yaml_document_t::pairs
        yaml_document_get_node yaml_node_t unnamed_yaml_node_t_data unnamed_yaml_node_t_data_scalar text_at
        """,
    ),
    (
        "Lines",
        """
        run_events run_nodes Outcome write_event write_document
        """,
    ),
]


def sentence(docs):
    """The first sentence of a doc comment, and the next where that says that nothing is done."""
    text = " ".join(docs).split("  ")[0].strip()
    end = re.search(r"^(?:Does nothing\. )?.*?\.(?= [A-Z`]|$)", text)
    return end[0] if end else text


def signature(text):
    """What stands before a function's contract and body, on one line, without `pub`."""
    text = re.sub(r"//.*", "", text)
    end = re.search(r"\s*(?:\n\s*(?:ensures|requires|\{)|\{|;|\Z)", text)
    packed = re.sub(r"\s+", " ", text[: end.start()].replace("pub ", "", 1)).strip().rstrip(",")
    return re.sub(r",? \)", ")", packed.replace("( ", "("))


def wrapped(code):
    """The lines of an item's code, which breaks between parameters, fields or variants, and before a result."""
    for whole in (r"<[^<>]*>", r"<[^<>]*(?:<[^<>]*>[^<>]*)*>", r"-> .*", r"\w+: [^,)]*", r"^fn \S+"):
        code = re.sub(whole, lambda part: part[0].replace(" ", "\0"), code)
    lines = textwrap.wrap(code, WIDTH, subsequent_indent="    ", break_long_words=False, break_on_hyphens=False)
    return [line.replace("\0", " ") for line in lines]


def members(text):
    """The public fields or the variants of a type, from its first line on."""
    body = text[: text.index("\n}")] if "{" in text.split("\n")[0] else ""
    code = [line.strip() for line in body.split("\n")[1:] if not line.strip().startswith(("//", "#"))]
    found = [line.rstrip(",").replace("pub ", "") for line in code if re.match(r"pub \w+:|[A-Z]\w*(\(.*\))?,$", line)]
    private = any(re.match(r"\w+:", line) for line in code)
    return found + [".."] * private


class Item:
    """A public item: its name, what its doc says first, and its code on one line."""

    def __init__(self, kind, name, docs, code):
        self.kind, self.name, self.says, self.code = kind, name, sentence(docs), code
        self.docs, self.clauses = [doc for doc in docs if doc.strip()], []

    def says_itself(self):
        """Whether the code says enough: parts of a content, public fields and variants, names of types, and what a few words say."""
        words = len(self.says.split())
        is_open = self.kind in ("struct", "enum") and "{" in self.code and ".." not in self.code
        is_name = self.name.endswith("::display") and "`name`" in self.says
        return self.name.startswith("unnamed_") or is_open or is_name or words <= (13 if self.says.startswith("Returns ") else 10)

    def lines(self, is_brief):
        """The code after what the doc says first; a brief one with the types alone that a method is of."""
        says = self.says
        if is_brief:
            says = "".join(re.findall(r"T is .*$", says))
        if says and not self.says_itself():
            yield from textwrap.wrap(says, WIDTH, initial_indent="/// ", subsequent_indent="/// ", break_on_hyphens=False)
        yield from wrapped(self.code)


def code_of(kind, name, text, owner=None):
    """An item's code, from its first line on."""
    if kind == "fn":
        return signature(text).replace(f"fn {name.split('::')[-1]}", f"fn {name}", 1)
    if kind in ("struct", "enum"):
        head = re.sub(r"\s*\{?$", "", text.split("\n")[0].replace("pub ", ""))
        inner = ", ".join(members(text)).removeprefix("..")
        return f"{head} {{ {inner} }}" if inner else head
    if kind == "trait":
        return f"trait {name}"
    return re.sub(r"\s*(=\s*yaml_.*)?\{?$", "", text.split("\n")[0].replace("pub ", "")).rstrip(";")


def implemented(trait, name, docs, text):
    """What an implementation for a type gives to its users: a way to make it, the items that it yields, or its text."""
    if item := re.search(r"^    type Item = (.*);", text, re.M):
        return Item("impl", f"{name}::iterator", docs, f"impl Iterator<Item = {item[1]}> for {name}")
    if trait.startswith("From<Vec"):
        return Item("fn", f"{name}::from", docs, f"fn {name}::from(tokens: {trait[5:-1]}) -> Self")
    if trait == "fmt::Display":
        return Item("impl", f"{name}::display", docs, f"impl Display for {name}")
    return None


def items_of(path):
    """The public items of a file, methods and trait methods among them as `Type::name`."""
    docs, owner, bounds, is_trait, found = [], None, "", False, []
    lines = path.read_text().splitlines()
    for number, line in enumerate(lines):
        if line.strip().startswith("///"):
            docs.append(line.strip()[3:].strip() or "  ")
            continue
        if re.match(r"\s*#\[", line):
            continue
        text = "\n".join(lines[number : number + 60])
        if match := ITEM.match(line):
            found.append(Item(match[1], match[2], docs, code_of(match[1], match[2], text)))
            found[-1].clauses = CLAUSE.findall(text.split("\n{")[0])
            owner, bounds, is_trait = (match[2], "", True) if match[1] == "trait" else (None, "", False)
        elif match := IMPL.match(line):
            owner, bounds, is_trait = (None if match[2] else match[3]), match[1] or "", False
            if match[2] and (item := implemented(match[2], match[3], docs, text[: text.find("\n}")])):
                found.append(item)
        elif owner and (match := METHOD.match(line)) and (match[1] or is_trait):
            name = f"{owner}::{match[2]}"
            code = code_of("fn", name, text)
            found.append(Item("fn", name, docs, code.replace("::", bounds + "::", 1) if ":" in bounds else code))
        elif line.startswith("}"):
            owner, is_trait = None, False
        docs = []
    return found


def root(crate):
    folder = TOP / "crates" / crate / "src"
    return next((folder / name for name in ("lib.rt", "main.rt") if (folder / name).exists()), None)


def is_library(crate):
    return root(crate) is not None and root(crate).name != "main.rt" and crate not in EXAMPLES


def module_files(crate, module):
    """The file of a public module, and those of its public modules."""
    path = TOP / "crates" / crate / "src" / f"{module}.rt"
    inner = re.findall(r"^pub mod (\w+);", path.read_text(), re.M)
    return [path, *(path.with_suffix("") / f"{name}.rt" for name in sorted(inner))]


def public_of(crate):
    """Each public name of a crate: its item, or `None` where it is re-exported from another crate."""
    own = {}
    for path in sources(crate):
        for item in items_of(path):
            own.setdefault(item.name, item)
    public = {item.name: item for item in items_of(root(crate))}
    for where, _, name in reexports(root(crate)):
        public[name] = own.get(name) if where[0] not in CRATES else None
    for module in re.findall(r"^pub mod (\w+);", root(crate).read_text(), re.M):
        for path in module_files(crate, module):
            prefix = "::".join(path.relative_to(TOP / "crates" / crate / "src").with_suffix("").parts)
            for item in items_of(path):
                if item.name.split("::")[0] not in public:
                    public[f"{prefix}::{item.name}"] = item
            for _, _, name in reexports(path):
                if name in own and name not in public:
                    public[f"{prefix}::{name}"] = own[name]
    for name, item in list(own.items()):
        owner = name.split("::")[0]
        if "::" in name and owner in public and public[owner] is not None:
            public[name] = item
    return public


def named_above(crate):
    """The types of a crate that specs and proofs of the crates above name."""
    texts = (path.read_text() for other in CRATES if other != crate for path in (TOP / "crates" / other).glob("[ps]*s/**/*.antt"))
    paths = (match for text in texts for match in re.findall(rf"Rattle\.{crate}\.specs\.declared\.([\w.]+)", text))
    return {name for path in paths for name in path.split(".")}


def hidden(crate):
    """The names of items that say `pub` where no path from the root reaches them, and no proof above."""
    public = [*public_of(crate), *named_above(crate)]
    names = [item.name for path in sources(crate) for item in items_of(path) if item.kind != "impl"]
    return [name for name in names if not any(key == name or key.endswith("::" + name) for key in public)]


def grouped(rows):
    """The items, each type before its methods; a method that many types have alike stands once."""
    alike = {}
    for name, item in rows:
        key = (name.split("::")[-1], item.says, item.code.split("(", 1)[-1]) if item.kind == "fn" and "::" in name else name
        alike.setdefault(key, []).append(item)
    for items in alike.values():
        alike_says = items[0].says
        if len(items) > 2:
            owners = ", ".join(item.name.split("::")[0] for item in items)
            name = items[0].name.split("::")[-1]
            items = [Item("fn", name, [], f"fn T::{name}({items[0].code.split('(', 1)[1]}")]
            items[0].says = f"{alike_says} T is {owners}."
        yield from items


def in_order(rows):
    """Types with their methods after them, and then functions and constants."""
    owners = {name: number for number, (name, item) in enumerate(rows) if item.kind in ("struct", "enum", "trait")}

    def place(row):
        number, (name, item) = row
        owner = name.split("::")[0]
        return (0, owners[owner], name != owner, number) if owner in owners else (1, number)

    return [row for _, row in sorted(enumerate(rows), key=place)]


def unnamed_laws(laws):
    """The laws that PROVED doesn't name; of those that many enums have alike and of those in vectors and productions no name is asked."""
    proved = set(re.findall(r"`(?:\w+::)*(\w+)`", (TOP / "docs" / "PROVED.md").read_text()))
    for crate, names in laws:
        for name in names:
            *modules, law = name.split("::")
            if not {"vectors", "productions", law} & {*modules, *(proved & {law})} and not OF_ENUM.match(law):
                yield f"{crate}: docs/PROVED.md doesn't name the law {name}"


def law_lines(laws):
    """The lines of laws, pairs of a crate and its rows: each law's name and clauses, and what its comment says."""
    for crate, rows in laws:
        shown = [(name, item) for name, item in rows if not OF_ENUM.match(name.split("::")[-1])]
        yield from ["", f"-- {crate}"] if shown else []
        for name, item in shown:
            clauses = f" ({', '.join(item.clauses)})" if item.clauses else ""
            yield from ["", *textwrap.wrap(name + clauses, WIDTH, subsequent_indent="    ")]
            yield from textwrap.wrap(" ".join(item.docs), WIDTH, initial_indent="/// ", subsequent_indent="/// ", break_on_hyphens=False)


def block(items, is_brief=False):
    for item in items:
        yield from item.lines(is_brief)


def make(pages):
    listed, laws, without, everything = {}, [], [], {}
    for crate in filter(is_library, CRATES):
        rows = [(name, item) for name, item in public_of(crate).items() if item is not None]
        without += [f"{crate}: {name} has no doc" for name, item in rows if not item.says and item.kind != "impl"]
        without += [f"{crate}: {name} is no public item, so `pub(crate)`" for name in hidden(crate)]
        of_crate = [(name, item) for name, item in rows if LAWS.match(name)]
        laws += [(crate, of_crate)] if of_crate else []
        listed[crate] = [(name, item) for name, item in rows if not LAWS.match(name)]
        everything.update(listed[crate])
    first = {name for _, names in FIRST for name in names.split()}
    without += [f"{name}, which parts/pages/surface.py puts first, is no item" for name in sorted(first - set(everything))]
    without += unnamed_laws((crate, [name for name, _ in rows]) for crate, rows in laws)
    if without:
        return without
    lines = [HEAD.rstrip(), "", "", "WHAT A PROGRAM USES FIRST"]
    for title, names in FIRST:
        lines += ["", f"-- {title}", "", *block(everything[name] for name in names.split())]
    lines += ["", "", "THE OTHERS, BY THEIR CRATES"]
    passing = {user: {name for _, _, name in reexports(root(user))} for user in NAMED if user in listed}
    for crate, rows in listed.items():
        users = [user for user, names in passing.items() if crate != user and any(name in names for name, _ in rows)]
        can_name = [(n, i) for n, i in rows if crate in NAMED and not INNER.match(n) or any(n.split("::")[0] in passing[user] for user in users)]
        left = [(name, item) for name, item in in_order(can_name) if name not in first]
        if left:
            title = f"-- {crate}" + (f", re-exported by {' and '.join(users)}" if users and crate not in NAMED else "")
            lines += ["", title, "", *block(grouped(left), is_brief=True)]
    pages[PAGE], pages[TOP / "docs/laws.txt"] = ("\n".join([*made, ""]) for made in (lines, [LAWS_HEAD.rstrip(), *law_lines(laws)]))
    return []

