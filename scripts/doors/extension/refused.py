"""Refuses allocations in turn while texts are read by this package's C loaders: a MemoryError has to come, or what comes without.

    refused.py after|alone|libc [--turned] [TEXTS]

`after` refuses Python's Nth allocation and each after it, `alone` the Nth, both for each N until all is read (_testcapi); `libc`
refuses the Nth of libc's, by fail_allocation.so, which is preloaded. TEXTS is how many of the texts are read. With `--turned`
another outcome than the text's is wanted, so all have to be wrong. Says what is wrong, and exits with 1 if something is.

Run by extension_checks.sh.
"""
import ctypes
import io
import sys
from pathlib import Path

sys.path.insert(0, str(Path(__file__).resolve().parent.parent / "clients"))
from cloaders import error, fields, nodes

import pokhvizi

TEXTS = [
    "a: [1, {b: &x c}, *x, !!str d]\nk: 'q'\n? &z [e]\n: !<tag:yaml.org,2002:seq> [f]\n",
    "%YAML 1.1\n%TAG !e! tag:yaml.org,2002:\n---\n- !e!int 3\n- &" + "l" * 300 + " !<" + "t" * 300 + "> x\n",
    "a: *b",
    "[a}",
    "".join("- &a%d x\n" % i for i in range(40)),
    "[" * 40 + "]" * 40,
    "- " * 70 + "x",
    "&a [&a b]",
    "a: b: c",
    "{a: [], b: {c: d}, [e]: f, a: g}",
    "\xff\xff",
    "a\n--- b",
    "\x00",
    "x: |\n  a\n  b\ny: >\n  c\n",
    "'" + "x " * 20000 + "'",
]


class Unique(pokhvizi.CSafeLoader):
    unique_keys = True


READINGS = {
    "node": (lambda source: [pokhvizi.CBaseLoader(source).get_single_node()], nodes),
    "tags": (lambda source: [pokhvizi.CSafeLoader(source).get_single_node()], nodes),
    "keys": (lambda source: [Unique(source).get_single_node()], nodes),
    "events": (lambda source: list(iter(pokhvizi.CBaseLoader(source).get_event, None)), fields),
    "tokens": (lambda source: list(iter(pokhvizi.CBaseLoader(source).get_token, None)), fields),
}


class PythonsAllocations:
    """Refuses Python's allocations from the Nth on, or that one."""

    def __init__(self, alone):
        import _testcapi
        self.calls, self.alone = _testcapi, alone

    def __call__(self, number):
        self.calls.set_nomemory(number - 1, number if self.alone else 0)

    def stop(self):
        """Returns whether an allocation may have been refused, which isn't told."""
        self.calls.remove_mem_hooks()
        return True


class LibcsAllocations:
    """Refuses libc's Nth allocation."""

    def __init__(self):
        self.refuse, self.made = ctypes.CDLL(None).refuse_allocation, ctypes.CDLL(None).allocations_made
        self.made.restype = ctypes.c_long

    def __call__(self, number):
        self.number = number
        self.refuse(ctypes.c_long(number))

    def stop(self):
        made = self.made()
        self.refuse(ctypes.c_long(0))
        return made >= self.number


def outcome(read, describe, source, refuse=None, number=0):
    """Returns what a reading gives, and whether an allocation may have been refused."""
    made = failure = None
    was_refused = False
    try:
        if refuse:
            refuse(number)
        made = read(source)
    except Exception as raised:
        failure = raised
    finally:
        if refuse:
            was_refused = refuse.stop()
    if isinstance(failure, MemoryError):
        return MemoryError, was_refused
    return (error(failure) if failure else [describe(it) for it in made]), was_refused


def interpreters_errors(refuse):
    """Returns what comes where an allocation is refused while an error of `int` passes through a function, which has nothing of
    this package: CPython 3.11 loses the error, and says so by a SystemError."""
    tried = [outcome(lambda source: [int(source)], repr, "x", refuse, number)[0] for number in range(1, 50)]
    return [came for came in tried if came is not MemoryError and came[0] == "SystemError"]


def refusals(refuse, reading, source, also, turned):
    """Refuses each allocation of a reading; returns how many there were, and the numbers of those with a wrong outcome."""
    read, describe = READINGS[reading]
    whole, _ = outcome(read, describe, source())
    number, quiet, wrong = 0, 0, []
    while quiet < 200:  # allocations on end that changed nothing: all of them are past the last
        number += 1
        came, was_refused = outcome(read, describe, source(), refuse, number)
        quiet = quiet + 1 if came == whole else 0
        if came is not MemoryError and came != whole and came not in also or turned:
            wrong.append((number, came))
        if not was_refused:
            break
    return number, wrong


def main(words):
    turned = "--turned" in words
    how, *rest = [word for word in words if word != "--turned"]
    refuse = LibcsAllocations() if how == "libc" else PythonsAllocations(how == "alone")
    also = interpreters_errors(refuse)
    count = wrong = 0
    for text in TEXTS[:int(rest[0]) if rest else None]:
        for reading in READINGS:
            for source in (lambda: text, lambda: io.BytesIO(text.encode())):
                made, bad = refusals(refuse, reading, source, also, turned)
                count += made
                wrong += len(bad)
                for number, came in bad[:3]:
                    print("wrong: %r, %s, allocation %d refused: %s" % (text[:30], reading, number, str(came)[:200]))
    print("%d allocations refused, %d wrong%s" % (count, wrong, "; the interpreter loses errors by itself" if also else ""))
    sys.exit(wrong != 0)


main(sys.argv[1:])
