"""Whether tokens, events and documents come as early as with PyYAML's loaders: how much of a stream has been read at each.

    streams.py [--turned] FILE..

A stream gives one byte at a time. With the C loaders all has to come at the same places, and with those in Python each
event there or before. The first event with content has to come before the end of a text of many lines. With `--turned` the
proved loader's stream gives two bytes, so the files have to differ. Says what is wrong, and exits with 1 then.

Run by extension_checks.sh.
"""
import sys

import pokhvizi
import yaml


class Slow:
    """A stream that gives few bytes at a time, and knows how many it gave."""

    def __init__(self, text, step=1):
        self.text, self.step, self.place = text, step, 0

    def read(self, _):
        some = self.text[self.place:self.place + self.step]
        self.place += len(some)
        return some


def places(what, loader, stream):
    """Returns the kinds of what comes, each with how much had been read by then; and the error, if one ends it."""
    made = []
    try:
        for it in getattr(yaml, what)(stream, Loader=loader):
            made.append((type(it).__name__, stream.place))
    except yaml.YAMLError as failure:
        made.append((type(failure).__name__, stream.place))
    return made


def first_scalar(library):
    """Returns how much of a long text has been read when its first scalar comes, and the text's length."""
    stream = Slow(b"- some words\n" * 10000)
    for event in yaml.parse(stream, Loader=library.CBaseLoader):
        if isinstance(event, yaml.ScalarEvent):
            return stream.place, len(stream.text)


# Directives that are neither YAML nor TAG, which end a document. libyaml refuses them.
DIRECTIVES = b"'a'\n%FOO x\n'b'\n", b"[a]\n%FOO x\n# some words\n--- b\n", b"%FOO x\n---\n%BAR\n%TAG !e! t:\n--- !e!a b\n"


def in_python(text, step):
    """Returns what comes of a text by PyYAML's loader in Python and by the proved one."""
    return places("parse", yaml.SafeLoader, Slow(text)), places("parse", pokhvizi.SafeLoader, Slow(text, step))


def late(theirs, ours):
    """Returns the events that come later than PyYAML's, each behind that one."""
    return [pair for pair in zip(theirs, ours) if pair[0][0] == pair[1][0] and pair[0][1] < pair[1][1]]


def main(words):
    step = 2 if words[0] == "--turned" else 1
    files = [word for word in words if word != "--turned"]
    wrong = 0
    for name in files:
        with open(name, "rb") as file:
            text = file.read()
        for what in ("scan", "parse", "compose_all"):
            theirs, ours = places(what, yaml.CBaseLoader, Slow(text)), places(what, pokhvizi.CBaseLoader, Slow(text, step))
            if theirs != ours:
                wrong += 1
                print("wrong: %s of %s: %s" % (what, name, [pair for pair in zip(theirs, ours) if pair[0] != pair[1]][:2]))
        found = late(*in_python(text, step))
        if found:
            wrong += 1
            print("wrong: a loader in Python over %s: %s" % (name, found[:2]))
    for text in DIRECTIVES:
        theirs, ours = in_python(text, step)
        if [kind for kind, _ in theirs] != [kind for kind, _ in ours] or late(theirs, ours):
            wrong += 1
            print("wrong: a loader in Python over %r: %s, wanted was %s" % (text, ours, theirs))
    place, length = first_scalar(pokhvizi)
    if place > length // 100:
        wrong += 1
        print("wrong: the first scalar comes after %d of %d bytes" % (place, length))
    print("%d files, the first scalar of %d bytes comes after %d, %d wrong" % (len(files), length, place, wrong))
    sys.exit(wrong != 0)


main(sys.argv[1:])
