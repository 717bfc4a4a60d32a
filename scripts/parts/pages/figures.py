"""Numbers within pages that are written by hand: FIGURES has each one's page, the words around it with N in its
place, and how it is counted. They can't be made if no page says these words, or if a number stands before one of the
words of COUNTED and isn't in FIGURES."""
import re

from sources import CRATES, TOP

WORDS = "none one two three four five six seven eight nine ten eleven twelve".split()
NUMBER = rf"(\d[\d,]*|{'|'.join(WORDS)})"
THINGS = "crates|mutants|equivalent mutants|edits|test vectors|vectors|broken texts"
COUNTED = re.compile(rf"\b(\d[\d,]*|{'|'.join(WORDS[4:])}) (?:{THINGS})\b", re.IGNORECASE)
OTHERS = {"CHANGELOG.md", "WRONG_BODIES.md", "PERFORMANCE.md"}  # made by other scripts, or of earlier states


def files(pattern):
    return len([path for path in TOP.glob(pattern) if "out" not in path.parts])


def lines(pattern, name):
    return sum(len(re.findall(pattern, path.read_text(), flags=re.M)) for path in TOP.glob(name))


def crates_below(name):
    return len([crate for crate in CRATES[name] if crate in CRATES])


def most_mutants():
    return max(files(f"crates/{crate}/must-fail/*.edit") for crate in CRATES)


def texts_of(side):
    return lines(rf"^\S+ +{side}\b", "scripts/parts/broken/differences")


def back_bytes():
    """The bytes of the stack of states that lead back."""
    text = (TOP / "crates/libyaml_automaton/specs/Numbers.antt").read_text()
    *most, last = re.findall(r"byte == (\d+)", re.search(r"^is_back_byte byte = (.*(?:\n .*)*)", text, flags=re.M)[1])
    return ", ".join(most) + " or " + last


FIGURES = [
    ("docs/GATE.md", "N crates,", lambda: len(CRATES)),
    ("docs/GATE.md", "tries N mutants", lambda: files("crates/*/must-fail/*.edit")),
    ("docs/GATE.md", "N equivalent mutants", lambda: files("crates/*/controls/*.edit")),
    ("docs/GATE.md", "now N in one crate", most_mutants),
    ("docs/CALLING.md", "without the other N crates below `unsafe_libyaml`", lambda: crates_below("unsafe_libyaml") - 2),
    ("docs/CALLING.md", "N broken texts", lambda: files("scripts/parts/broken/*.yaml")),
    ("docs/CALLING.md", "of which N differs from libyaml's", lambda: texts_of("libyaml")),
    ("docs/CALLING.md", "and N from PyYAML's", lambda: texts_of("pyyaml")),
    ("docs/CALLING.md", "N ghost members", lambda: lines(r"^    ghost \w+:", "crates/libyaml_types/src/source.rt")),
    ("docs/PROVED.md", "hashes of the N enums", lambda: lines(r"^pub fn order_of_", "crates/libyaml_types/src/laws.rt")),
    ("docs/PROVED.md", "`laws::vectors`: N test vectors",
     lambda: lines(r"^ +ensures ", "crates/libyaml_graphs/src/laws/vectors.rt")),
    ("docs/PROVED.md", "N test vectors (`vectors`)",
     lambda: lines(r"^(?:abbrev pub )?Vector\w* :", "crates/rust_original/specs/vectors/*.antt")),
]


def places(words, text):
    return list(re.finditer(re.escape(words).replace("N", NUMBER, 1), text, flags=re.IGNORECASE))


def shown_as(number, like):
    """A number in the form of another: in a word, or in digits."""
    word = WORDS[number] if number < len(WORDS) and not like[0].isdigit() else f"{number:,}"
    return word.capitalize() if like[0].isupper() else word


def unknown(name, text):
    known = [match.span() for other, words, _ in FIGURES if other == name for match in places(words, text)]
    for match in COUNTED.finditer(text):
        if not any(begin < match.end() and match.start() < end for begin, end in known):
            yield f'{name}: parts/pages/figures.py has no line of "{match[0]}"'


def make(pages):
    wrong = []
    for name, words, count in FIGURES:
        text = pages[TOP / name]
        found = places(words, text)
        wrong += [] if found else [f'{name}: nothing says "{words}"']
        for match in reversed(found):
            text = text[: match.start(1)] + shown_as(count(), match[1]) + text[match.end(1) :]
        pages[TOP / name] = text
    proved = TOP / "docs/PROVED.md"
    listed = r"[\d, ]+ or \d+(?=: a state to which a parser goes back)"
    pages[proved], count = re.subn(listed, f" {back_bytes()}", pages[proved])
    wrong += [] if count == 1 else ["docs/PROVED.md doesn't list the bytes of the stack of states"]
    for page in [page for form in ("*.md", "docs/*.md", "*/*/README.md", "scripts/README.md") for page in TOP.glob(form)]:
        wrong += [] if page.name in OTHERS else unknown(str(page.relative_to(TOP)), page.read_text())
    return wrong
