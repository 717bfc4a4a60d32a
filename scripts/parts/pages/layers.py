"""docs/layers.mmd: a picture of what each crate needs directly, without crates that one of these needs itself, those of
the kit, and the last two layers, which are the examples, the tests and the bench."""
from sources import CRATES, TOP, layers


def direct(listed):
    """Of each crate's list, those that no other crate of the list needs."""
    def needs(name):
        return set().union(*({below} | needs(below) for below in listed[name]))

    return {name: below - set().union(*map(needs, below)) for name, below in listed.items()}


def make(pages):
    needed = direct({name: set(listed) & set(CRATES) for name, listed in CRATES.items()})
    lines, shown = ["flowchart BT"], layers()[:-2]
    for number, (title, layer) in enumerate(shown):
        lines += [f'    subgraph layer{number}["{title}"]', *(f"        {name}" for name in layer), "    end"]
    lines += [f"    {name} --> {below}" for _, layer in shown for name in layer for below in sorted(needed[name])]
    pages[TOP / "docs/layers.mmd"] = "\n".join([*lines, ""])
    return []
