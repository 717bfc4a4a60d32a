#!/usr/bin/env python3
"""Fails if a page names what is not there:

- a relative link to a missing file, or to a heading that its page does not have;
- a path of this repository, in backticks or in a command, that does not exist (what a build makes is left out);
- a heading of a page, such as `docs/DEFINITIONS.md, "Runs"`, that it does not have; comments of code are read for these too;
- a Rust block or a clause of a contract that no file of crates/ or examples/ has word for word (a block of bindings/plain is run by
  `cargo test`);
- a name in backticks that no file of the repository has as a word, except those of OUTSIDE; one in a heading of docs/DEFINITIONS.md has to
  be a definition, a file of `specs/` or a module;
- another version than that of the file VERSION: CHANGELOG's first entry, and the files of VERSIONS;

or if scripts/README.md doesn't list a script, or a crate has no README.md.

    python3 scripts/gate/links.py

Run by check.sh.
"""
import re
import sys
from pathlib import Path

TOP = Path(__file__).resolve().parents[2]
sys.path.insert(0, str(TOP / "scripts/parts"))

from sources import CRATES, read_specs  # noqa: E402
from usage import no_words  # noqa: E402

PAGES = [*TOP.glob("*.md"), *TOP.glob("docs/*.md"), *TOP.glob("crates/*/README.md"), *TOP.glob("bindings/*/README.md"),
         *TOP.glob("scripts/**/README.md")]
VERSIONS = {
    "CHANGELOG.md": r"^## (.*)$",
    "Cargo.toml": r'^version = "(.*)"$',
    "bindings/c/Cargo.toml": r'^version = "(.*)"$',
    "bindings/c/include/pokhvizi/version.h": r'^#define POKHVIZI_VERSION "(.*)"$',
    "bindings/python/src/pokhvizi/__init__.py": r'^__version__ = "(.*)"$',
    "bindings/rust/src/lib.rs": r'^pub const POKHVIZI_VERSION: &str = "(.*)";$',
}
# Names of other software, of the prover, of what a reader makes, and of a crate that is five now.
OUTSIDE = {"dac8208d650f15bf", "malloc_consolidate", "my_program", "raw_parse", "raw_scan", "yaml_buffer_t", "yaml_queue_t", "yaml_rows", "yaml_stack_t"}
NAME = re.compile(r"`([A-Za-z_]\w*(?:(?:::|\.)\w+)*)`")
MADE = re.compile(r"(^|/)(out|build|target|my_project)(/|$)|^(list\.tokens|vendored\.txt)$|\b(NAME|FILE|DEST)\b")
FILE = r"rt|antt|oantt|edit|md|py|sh|c|h|txt|yaml|tokens|events|nodes"
PATH = re.compile(rf"[\w.*-]+(/[\w.*-]+)+/?|\w+\.({FILE})")
IN_COMMAND = re.compile(r"(?<![\w./])(?:crates|docs|scripts|examples|bindings)/[\w./*-]*[\w*/]")
LINK = re.compile(r"\[[^\]]*\]\(([^)\s]+)\)")
TEXTS = [".rt", ".antt", ".edit", ".py", ".sh", ".c", ".h", ".rs", ".txt", ""]
HEADING = re.compile(r"(\w+\.md)\)?`?, (\"[^\"\n]+\"(?:(?:, | and |, and )\"[^\"\n]+\")*)")


def is_kept(path):
    """Whether this is a file or folder of the repository and no kept work of a check."""
    return not {"out", "build", ".git"} & set(path.relative_to(TOP).parts)


FILES = ["/" + str(path.relative_to(TOP)) for path in TOP.rglob("*") if is_kept(path)]


def outside_code(text):
    return re.sub(r"^```.*?^```", "", text, flags=re.M | re.S)


def headings(page):
    return [line.lstrip("#").strip() for line in outside_code(page.read_text()).splitlines() if line.startswith("#")]


def anchor(heading):
    """The name that a forge gives to a heading."""
    return re.sub(r"[^\w\- ]", "", heading.lower()).replace(" ", "-")


def is_there(name, page):
    """Whether a path names something from the top, from the page's folder, or as the end of one path or more."""
    name = name.rstrip("/")
    pattern = re.escape(name).replace(r"\*", "[^/]*")
    ends = re.compile(rf"/(.*/)?{pattern}(\.antt|\.rt)?$")
    return (page.parent / name).exists() or any(ends.match(file) for file in FILES)


def broken_links(page, text):
    for target in LINK.findall(text):
        if re.match(r"\w+:", target):
            continue
        path, _, name = target.partition("#")
        other = page.parent / path if path else page
        if not other.exists():
            yield f"link to {target}"
        elif name and name not in map(anchor, headings(other)):
            yield f"link to {target}: no such heading"


def missing_paths(page, text):
    in_backticks = [name for name in re.findall(r"`([^`\n]+)`", outside_code(text)) if PATH.fullmatch(name)]
    for name in sorted({*in_backticks, *IN_COMMAND.findall(text)}):
        if not MADE.search(name) and not is_there(name, page):
            yield f"path {name}"


def missing_headings(text):
    for name, quoted in HEADING.findall(text):
        known = [heading.split(" (")[0] for other in PAGES if other.name == name for heading in headings(other)]
        for heading in re.findall(r'"([^"]+)"', quoted):
            if heading not in known:
                yield f'{name} has no heading "{heading}"'


def unindented(code):
    return re.sub(r"^ +", "", code, flags=re.M)


def missing_blocks(text, code):
    for block in re.findall(r"^```rust\n(.*?)^```", text, flags=re.M | re.S):
        if "use pokhvizi::" not in block and unindented(block).strip() not in code:
            yield f"a Rust block that no file has: {block.strip().splitlines()[0]}"
    packed = re.sub(r"\s", "", code)
    for block in re.findall(r"^```\n(.*?)^```", text, flags=re.M | re.S):
        for clause in re.findall(r"^ensures .*?(?=^//|^ensures |\Z)", block, flags=re.M | re.S):
            if re.sub(r"\s", "", clause) not in packed:
                yield f"a clause that no file has: {clause.splitlines()[0]}"


def known_words():
    """The words of the repository's files, without pages, and of their names."""
    folders = [path for name in ("crates", "scripts", "examples", "bindings", "bench") for path in (TOP / name).rglob("*")]
    paths = [path for path in [*folders, *TOP.glob("*")] if "out" not in path.parts]
    texts = [path.read_text(errors="ignore") for path in paths if path.is_file() and path.suffix in TEXTS]
    return set(re.findall(r"\w+", "\n".join([*texts, *(str(path.relative_to(TOP)) for path in paths)])))


def defined_words():
    """The names that a heading of DEFINITIONS may have."""
    defined = {name for module, file in read_specs().items() for name in [*file.names, *module.split(".")]}
    return defined | {path.stem for path in [*TOP.glob("crates/*"), *TOP.glob("crates/*/src/**/*.rt")]}


def unknown_names(page, text, known, defined):
    for line in outside_code(text).splitlines():
        words = defined if page.name == "DEFINITIONS.md" and line.startswith("#") else known
        yield from (f"nothing is named `{name}`" for name in NAME.findall(line) if not words.issuperset(re.split(r"::|\.", name)))


def unlisted():
    text = (TOP / "scripts" / "README.md").read_text()
    folders = ("*.sh", "*.py", "*/run.sh", "doors/*.sh", "doors/*.py", "gate/*.*", "parts/*.sh", "parts/*.py", "parts/pages/*.py")
    for path in (path for folder in folders for path in TOP.glob(f"scripts/{folder}")):
        name = re.sub("^(gate|parts)/", "", str(path.relative_to(TOP / "scripts")))
        if not re.search(rf"(`|/){re.escape(name)}`", text):
            yield f"scripts/README.md: {name} is not listed"
    yield from (f"crates/{crate} has no README.md" for crate in CRATES if not (TOP / "crates" / crate / "README.md").exists())


def other_versions():
    version = (TOP / "VERSION").read_text().strip()
    for name, form in VERSIONS.items():
        shown = re.search(form, (TOP / name).read_text(), flags=re.M)
        if shown is None or shown[1] != version:
            yield f"{name}: the version is {shown and shown[1]}, and VERSION says {version}"


def comments():
    """The files of code, definitions and examples, each with its comments, joined over the ends of lines."""
    for path in [*TOP.glob("crates/**/*.rt"), *TOP.glob("crates/**/*.antt"), *TOP.glob("examples/*"), *TOP.glob("scripts/**/*.*"), *TOP.glob("bindings/**/*.*")]:
        if is_kept(path) and path.is_file() and path != Path(__file__).resolve():
            yield path, re.sub(r"\n\s*(//[/!]?|--|\*|#) *", " ", path.read_text(errors="replace"))


def problems():
    files = [*TOP.glob("crates/*/src/**/*.rt"), *TOP.glob("examples/*.txt")]
    code = unindented("\n".join(path.read_text() for path in files))
    known, defined = known_words() | OUTSIDE, defined_words()
    for page in PAGES:
        text = page.read_text()
        found = [*broken_links(page, text), *missing_paths(page, text), *missing_headings(text), *missing_blocks(text, code)]
        found += [] if page.name == "CHANGELOG.md" else unknown_names(page, text, known, defined)
        yield from (f"{page.relative_to(TOP)}: {problem}" for problem in found)
    yield from [*unlisted(), *other_versions()]
    for path, text in comments():
        yield from (f"{path.relative_to(TOP)}: {problem}" for problem in missing_headings(text))


def main():
    found = list(problems())
    if found:
        sys.exit("\n".join(found))


if __name__ == "__main__":
    no_words(__file__)
    main()
