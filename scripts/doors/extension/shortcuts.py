"""What the C loaders do by themselves in place of PyYAML's functions, where somebody has others: a loader's class, its
rules or its tags, or PyYAML's own classes and functions.

    shortcuts.py [--turned]

Each case is an act by `pokhvizi.CSafeLoader` and by `yaml.CSafeLoader`, which have to give the same nodes and values,
and to call what was put in place as often, with the same arguments. With `--turned` they have to differ, so all are
wrong. Says what is wrong, and exits with 1 if something is.

Run by extension_checks.sh.
"""
import contextlib
import gc
import re
import subprocess
import sys
import weakref

import pokhvizi
import yaml
from yaml import nodes, resolver

TURNED = "--turned" in sys.argv
TEXTS = [
    "- {a: 1, b: yes, c: '1', 1: ~}\n- [1, x, 1, !!str 1, ! 1, '', ]\n- 2001-02-03\n-\n- &a yes\n- *a\n",
    "- <<\n- =\n",
    "[1, word, yes, 1, word, a word of more than 24 bytes, ü, 'word', {word: [], z: {}}]\n",
    "word\n",
    "1\n",
]
STREAM = "".join("---\n" + text for text in TEXTS * 3)
noted = []
cases = wrong = 0


def said(act):
    try:
        return act()
    except Exception as failure:
        return type(failure).__name__, str(failure).split("\n")[0]


def expect(name, found, wanted):
    global cases, wrong
    cases += 1
    if (found == wanted) is TURNED:
        wrong += 1
        print("wrong: %s: %s, wanted was %s" % (name, str(found)[:300], str(wanted)[:300]))


def alike(name, act):
    """An act by a loader class of its own over each library's, and what it noted."""
    found = []
    for library in pokhvizi, yaml:
        noted.clear()
        found.append((said(lambda: act(type("Mine", (library.CSafeLoader,), {}))), list(noted)))
    expect(name, *found)


def told(it):
    """A node's kind and all that it has, of a mark its place, of others themselves."""
    if isinstance(it, (tuple, list)):
        return [told(part) for part in it]
    if isinstance(it, yaml.Node):
        return type(it).__name__, [(name, told(value)) for name, value in vars(it).items()]
    return (it.line, it.column) if hasattr(it, "line") else it


def read(loader):
    """The nodes and the values of all documents."""
    return [said(lambda: told(list(act(text, loader)))) for act in (yaml.compose_all, yaml.load_all)
            for text in TEXTS + [STREAM]]


@contextlib.contextmanager
def put(place, name, thing):
    """Has an object something else by a name for a while."""
    is_own, old = name in vars(place) or name == "__code__", getattr(place, name, None)
    setattr(place, name, thing)
    try:
        yield
    finally:
        setattr(place, name, old) if is_own else delattr(place, name)


# ---- Nodes ----

def plainly():
    alike("nodes", read)
    many = "[%s]" % ", ".join("%x" % number for number in range(3000))
    alike("many scalars", lambda loader: told(yaml.compose(many, loader)))
    alike("references to a node and its value", lambda loader: [
        sys.getrefcount(part) for node in yaml.compose("['a long text', [], {}]", loader).value
        for part in (node, node.value)])
    alike("a weak reference to a node", lambda loader: weakref.ref(yaml.compose("a", loader))())
    alike("a node that refers to itself", collected)


def collected(loader):
    it = weakref.ref(yaml.compose("&a [*a]", loader))
    gc.collect()
    return it()


def noting(place, name):
    """A class's method of this name that notes its calls."""
    old = getattr(place, name)

    def method(self, *arguments):
        noted.append((name, told(arguments)))
        return old(self) if name == "__new__" else old(self, *arguments)

    return method


def other_init(self, tag, value, start_mark=None, end_mark=None, style=None):
    self.tag, self.value, self.start_mark, self.end_mark, self.other = tag, value, start_mark, end_mark, style


def last_put(self):
    return self.__dict__["put"][-1]


def put_behind(self, value):
    self.__dict__.setdefault("put", []).append(value)


class Pieces:
    """A stream that gives these pieces, and does something as it gives the last."""

    def __init__(self, pieces, act):
        self.pieces, self.act, self.name = list(pieces), act, "pieces"

    def read(self, _):
        if len(self.pieces) == 1:
            self.act()
        return self.pieces.pop(0) if self.pieces else ""


def changed_classes():
    """PyYAML's classes with something else in them: before a stream, between its documents, and while it is read."""
    for place in nodes.Node, nodes.ScalarNode, nodes.CollectionNode, nodes.SequenceNode, nodes.MappingNode:
        for name in "__init__", "__setattr__", "__getattribute__":
            changed("%s.%s" % (place.__name__, name), place, name, noting(place, name))
        for name in "tag", "value", "end_mark", "style":
            changed("%s.%s" % (place.__name__, name), place, name, property(last_put, put_behind))
    for place in nodes.ScalarNode, nodes.CollectionNode:
        changed("the code of %s.__init__" % place.__name__, place.__init__, "__code__", other_init.__code__)
    alike("nodes afterwards", read)


def changed(name, place, what, thing):
    def before(loader):
        with put(place, what, thing):
            made = read(loader)
        return made, read(loader)

    def between(loader):
        documents = yaml.compose_all(STREAM, loader)
        made = [told(next(documents))]
        with put(place, what, thing):
            made.append(told(next(documents)))
        return made + told(list(documents))

    def amid(loader):
        with contextlib.ExitStack() as stack:
            pieces = ["- a\n- [b]\n" * 10, "- c\n- [{d: e}]\n" * 10]
            stream = Pieces(pieces, lambda: stack.enter_context(put(place, what, thing)))
            return told(yaml.compose(stream, loader))

    alike(name, before)
    alike(name + ", between documents", between)
    alike(name + ", while a document is read", amid)


def created():
    """Python keeps it in mind if a class had a `__new__`, so this is the last."""
    nodes.Node.__new__ = noting(nodes.Node, "__new__")
    alike("Node.__new__", read)


# ---- Tags ----

class Matches:
    """An object that isn't a regular expression, and matches each second time."""

    def __init__(self):
        self.count = 0

    def match(self, value):
        noted.append(value)
        self.count += 1
        return self.count % 2


class Fails:
    def match(self, value):
        raise KeyError(value)


class Text(str):
    pass


class Dict(dict):
    def get(self, key, default=None):
        noted.append(key)
        return super().get(key, default)


class List(list):
    def __add__(self, other):
        noted.append(len(self))
        return super().__add__(other)


def of_own(loader):
    """A loader class's own rules, which may be changed."""
    if "yaml_implicit_resolvers" not in vars(loader):
        old = loader.yaml_implicit_resolvers
        loader.yaml_implicit_resolvers = {key: list(rules) for key, rules in old.items()}
    return loader.yaml_implicit_resolvers


def first(loader, key, rule):
    of_own(loader).setdefault(key, []).insert(0, rule)


def replaced(loader, key, rules):
    of_own(loader)[key] = rules


def given(to, rules):
    to.yaml_implicit_resolvers = rules


def noting_resolve(kind, value, implicit):
    noted.append((kind.__name__, value, implicit))
    return "!own"


class Wraps:
    """What notes calls of a method, and has its attributes."""

    def __init__(self, method):
        self.method = method

    def __call__(self, *arguments):
        noted.append((self.__name__, len(arguments)))
        return self.method(*arguments)

    def __getattr__(self, name):
        return getattr(self.method, name)


def wrap(one, name):
    setattr(one, name, Wraps(getattr(one, name)))


class Other(resolver.BaseResolver):
    yaml_implicit_resolvers = {"w": [("!other", re.compile("word"))]}


def of_class(mine, one):
    """A loader's rules, which its `resolve` of a class method doesn't see."""
    given(one, {"w": [("!one", WORD)]})
    mine.resolve = classmethod(resolver.BaseResolver.resolve)


WORD = re.compile("word|1")
# What may be done to a loader's class, and to one loader of it.
ACTS = {
    "nothing": lambda mine, one: None,
    "add_implicit_resolver": lambda mine, one: mine.add_implicit_resolver("!word", WORD, ["w", "1", "y"]),
    "add_implicit_resolver for any": lambda mine, one: mine.add_implicit_resolver("!word", WORD, None),
    "another rule": lambda mine, one: first(mine, "w", ("!word", WORD)),
    "a rule before others": lambda mine, one: first(mine, "1", ("!word", WORD)),
    "a rule for any": lambda mine, one: first(mine, None, ("!word", WORD)),
    "a rule for empty texts": lambda mine, one: first(mine, "", ("!empty", re.compile(""))),
    "a rule for other characters": lambda mine, one: first(mine, "ü", ("!other", re.compile("."))),
    "as many other rules": lambda mine, one: replaced(mine, "1", [("!word", WORD)] * 3),
    "a rule for any, and none": lambda mine, one: (
        of_own(mine).pop(None, None) or first(mine, None, ("!word", WORD))),
    "an empty list": lambda mine, one: replaced(mine, "y", []),
    "no list": lambda mine, one: of_own(mine).pop("1", None),
    "no rules": lambda mine, one: given(mine, {}),
    "rules of one loader": lambda mine, one: one and given(one, {"w": [("!one", WORD)]}),
    "what isn't a regular expression": lambda mine, one: first(mine, "w", ("!word", Matches())),
    "the same for any": lambda mine, one: first(mine, None, ("!word", Matches())),
    "the same behind a rule": lambda mine, one: (
        first(mine, "w", ("!word", Matches())), first(mine, "w", ("!1", re.compile("1")))),
    "what fails": lambda mine, one: first(mine, "w", ("!word", Fails())),
    "a rule that is a number": lambda mine, one: first(mine, "w", 3),
    "a rule that is a list": lambda mine, one: first(mine, "w", ["!word", WORD]),
    "a rule of three": lambda mine, one: first(mine, "w", ("!word", WORD, 3)),
    "a tag that is None": lambda mine, one: first(mine, "w", (None, WORD)),
    "a tag of a class of texts": lambda mine, one: first(mine, "w", (Text("!word"), WORD)),
    "an expression of bytes": lambda mine, one: first(mine, "w", ("!word", re.compile(b"word"))),
    "a tuple of rules": lambda mine, one: replaced(mine, "w", (("!word", WORD),)),
    "a class of lists": lambda mine, one: replaced(mine, "w", List([("!word", WORD)])),
    "a class of dicts": lambda mine, one: given(mine, Dict(mine.yaml_implicit_resolvers)),
    "a property": lambda mine, one: given(mine, property(lambda self: {"w": [("!word", WORD)]})),
    "None": lambda mine, one: given(mine, None),
    "a tag of scalars": lambda mine, one: setattr(mine, "DEFAULT_SCALAR_TAG", "!scalar"),
    "a tag of sequences": lambda mine, one: setattr(mine, "DEFAULT_SEQUENCE_TAG", "!sequence"),
    "a tag of mappings": lambda mine, one: setattr(mine, "DEFAULT_MAPPING_TAG", "!mapping"),
    "a tag of one loader": lambda mine, one: one and setattr(one, "DEFAULT_SCALAR_TAG", "!one"),
    "a path": lambda mine, one: mine.add_path_resolver("!path", [None], str),
    "a class's `resolve`": lambda mine, one: setattr(mine, "resolve", lambda self, *words: noting_resolve(*words)),
    "a loader's `resolve`": lambda mine, one: one and setattr(one, "resolve", noting_resolve),
    "another's `resolve`": lambda mine, one: one and setattr(one, "resolve", Other().resolve),
    "a class method `resolve`": lambda mine, one: one and of_class(mine, one),
    "what wraps `resolve`": lambda mine, one: one and wrap(one, "resolve"),
    "what wraps `descend_resolver`": lambda mine, one: one and wrap(one, "descend_resolver"),
}


def rules():
    for name, act in ACTS.items():
        alike(name, lambda mine: (act(mine, None), read(mine))[1])
        alike(name + ", between documents", lambda mine: between_documents(mine, act))
    alike("rules that refer to their loader", referring)
    alike("a regular expression whose text does", referring_text)
    alike("rules that go while others are looked up", gone)
    own = resolver.BaseResolver
    alike("PyYAML's resolve", lambda mine: with_resolve(mine, own, "resolve", other_resolve))


def referring(mine):
    """A loader that its own rules refer to, of which one has matched; whether it is collected."""
    tag = Text("!word")
    tag.loader = one = mine(STREAM)
    rule = "!word", WORD
    for rules in [(tag, WORD)], [rule, (tag, WORD)], [rule, ("!word", tag)], [rule, tag]:
        one.yaml_implicit_resolvers = {"w": rules}
        one.check_node() and one.get_node()
    it = weakref.ref(one)
    del one, tag, rules
    gc.collect()
    return it()


def referring_text(mine):
    """Whether a loader is collected to which the text of a regular expression of its own refers, which has matched."""
    text, one = Text("word"), mine("word")
    text.loader = one
    one.yaml_implicit_resolvers = {"w": [("!word", re.compile(text))]}
    re.purge()  # else Python keeps the text
    one.check_node() and one.get_node()
    it = weakref.ref(one)
    del one, text
    gc.collect()
    return it() is None


def gone(mine):
    """The nodes of two documents; in the second one the lookup of the rules for any takes those for a character away."""
    class Key:
        def __hash__(self):
            return hash(None)

        def __eq__(self, other):
            if len(made) == 1:
                rules.pop("w", None)
            return False

    # So many that their memory goes back to the system.
    rules, made = {"w": [("!never", re.compile("never"))] * 200000, Key(): []}, []
    mine.yaml_implicit_resolvers = rules
    for node in yaml.compose_all("--- word\n--- word\n", mine):
        made.append(told(node))
    return made


def between_documents(mine, act):
    """The nodes of documents by one loader, to which an act is done twice, up to an error."""
    made, one = [], mine(STREAM)
    while (not made or made[-1][0] == "ok") and one.check_node():
        made.append(said(lambda: ("ok", told(one.get_node()))))
        if len(made) in (5, 10):
            act(mine, one)
    return made


def other_resolve(self, kind, value, implicit):
    return "!other"


def with_resolve(loader, place, name, thing):
    with put(place, name, thing):
        made = read(loader)
    return made, read(loader)


# ---- Before the import ----

OTHERS = {
    "a class of classes of nodes": """
class Meta(type):
    def __call__(cls, *arguments):
        made.append(arguments[1])
        return super().__call__(*arguments)
class ScalarNode(yaml.nodes.ScalarNode, metaclass=Meta):
    pass
yaml.nodes.ScalarNode = ScalarNode
""",
    "other functions": """
def init(self, tag, value, start_mark=None, end_mark=None, style=None):
    made.append(value)
    self.tag = self.value = tag
yaml.nodes.ScalarNode.__init__ = init
def resolve(self, kind, value, implicit):
    return kind is yaml.nodes.ScalarNode and implicit[0] or None
yaml.resolver.BaseResolver.resolve = resolve
""",
}


def before_import():
    """What PyYAML has before this package is imported. `resolve` knows PyYAML's own class of scalars alone."""
    for (name, code), tag in zip(OTHERS.items(), (None, True)):
        code = "import yaml\nmade = []\n%s\nimport pokhvizi\n" % code + (
            "print(made, [node.tag for node in yaml.compose('[word, 1]', pokhvizi.CSafeLoader).value])")
        run = subprocess.run([sys.executable, "-c", code], stdout=subprocess.PIPE, stderr=subprocess.STDOUT,
                             universal_newlines=True)
        expect(name + ", before the import", run.stdout, "%s %s\n" % (["word", "1"], [tag] * 2))


for part in plainly, changed_classes, rules, before_import, created:
    part()
print("%d cases, %d wrong" % (cases, wrong))
sys.exit(wrong != 0)
