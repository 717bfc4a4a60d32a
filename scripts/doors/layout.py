#!/usr/bin/env python3
"""Writes a C program that the compiler refuses unless the headers in bindings/c/include and the crates declare alike what crosses to
C: each struct, as many bytes, and each field by its name, with its type, at its offset; and each function, with the types of what it
takes and returns.

    python3 scripts/doors/layout.py > layout.c && cc -Ibindings/c/include -fsyntax-only layout.c

The table is made of the Rust structs alone. Each has `#[repr(C)]`, so its fields stand in their order, each at the next
multiple of its alignment. A struct that has no name in C is a part of another one. A slice is a pointer and a length, and what a
function only reads is const.

Run by door_checks.sh.
"""
import re
from pathlib import Path

CRATES = Path(__file__).resolve().parents[2] / "crates"
HEADERS_AT = CRATES.parent / "bindings" / "c" / "include"
# the header, the files that have its structs, the structs' names in C where they are others, parts of other structs, and the files
# that have its functions
HEADERS = (
    ("pokhvizi/compose.h",
     ("libyaml_composer/src/composer.rt", "libyaml_composer/src/records.rt", "document_steps/src/anchors.rt",
      "document_sizes/src/sizes.rt"),
     {"composer_t": "pokhvizi_composer_t", "open_t": "pokhvizi_open_t", "place_t": "pokhvizi_place_t",
      "anchor_t": "pokhvizi_anchor_t", "sizes_t": "pokhvizi_size_t"},
     (), ("pokhvizi_c/src/compose.rt",)),
    ("pokhvizi/steps.h",
     ("libyaml_types/src/mark.rt", "libyaml_automaton/src/automaton.rt", "libyaml_automaton/src/reading.rt",
      "token_steps/src/records.rt", "token_steps/src/steps.rt", "token_steps/src/tags/handles.rt"),
     {"yaml_mark_t": "pokhvizi_mark_t", "step_span_t": "pokhvizi_span_t", "step_event_t": "pokhvizi_event_t",
      "step_fault_t": "pokhvizi_fault_t", "steps_t": "pokhvizi_steps_t", "text_t": "pokhvizi_text_t",
      "handle_t": "pokhvizi_handle_t"},
     ("Automaton", "Reading"), ("pokhvizi_c/src/steps.rt", "pokhvizi_c/src/tags.rt")),
)
STRUCT = re.compile(r"#\[repr\(C\)\]\n(?:#\[[^\n]*\]\n)*pub struct (\w+) \{\n(.*?)^\}", re.M | re.S)
FIELD = re.compile(r"^    pub (\w+): (\w+),$", re.M)
FUNCTION = re.compile(r'^pub extern "C" fn (\w+)\(([^()]*)\)(?: -> (\w+))?', re.M)
PARAMETER = re.compile(r"\w+: (&?)(mut )?(\[?)(\w+)\]?")
# the name in C, and the size, which is the alignment too
NUMBERS = {"u8": ("uint8_t", 1), "u16": ("uint16_t", 2), "u32": ("uint32_t", 4), "i32": ("int32_t", 4), "u64": ("uint64_t", 8), "usize": ("size_t", 8)}


class Layout:
    """A type's name in C, size and alignment, and the fields of a struct."""

    def __init__(self, name, size, alignment, fields=()):
        self.name, self.size, self.alignment, self.fields = name, size, alignment, fields


def struct(name, body, types):
    """The layout of a struct whose fields have these types."""
    fields, offset, alignment = [], 0, 1
    found = FIELD.findall(body)
    if len(found) != body.count("pub "):
        raise SystemExit(f"{name}: a field that this script can't read")
    for field, kind in found:
        layout = types[kind]
        offset += -offset % layout.alignment
        fields.append((field, offset, layout))
        offset, alignment = offset + layout.size, max(alignment, layout.alignment)
    return Layout(name, offset + -offset % alignment, alignment, fields)


def write_fields(name, layout, parts, path="", start=0):
    """Writes what the fields of a struct have to be, and those of its parts."""
    for field, offset, kind in layout.fields:
        place = path + field
        print(f'_Static_assert(offsetof({name}, {place}) == {start + offset}, "{name}.{place}: its place");')
        if kind.name in parts:
            print(f'_Static_assert(sizeof((({name} *)0)->{place}) == {kind.size}, "{name}.{place}: its size");')
            write_fields(name, kind, parts, place + ".", start + offset)
        else:
            print(f'_Static_assert(_Generic((({name} *)0)->{place}, {kind.name}: 1, default: 0), "{name}.{place}: its type");')


def passed(parameter, names):
    """The types in C of what is passed for a parameter."""
    borrowed, changed, slice_of, kind = PARAMETER.fullmatch(parameter).groups()
    name = names.get(kind) or NUMBERS[kind][0]
    if not borrowed:
        return [name]
    return [f"{'' if changed else 'const '}{name} *"] + ["size_t"] * bool(slice_of)


def write_functions(header, sources, names):
    """Writes of which type each function of a header has to be."""
    found = [match for source in sources for match in FUNCTION.findall((CRATES / source).read_text())]
    declared = set(re.findall(r"^(?!static)\w.*\b(pokhvizi_\w+)\(", (HEADERS_AT / header).read_text(), re.M))
    if declared != {name for name, _, _ in found}:
        raise SystemExit(f"{header} declares other functions than the crates have: {declared ^ {name for name, _, _ in found}}")
    for name, parameters, result in found:
        given = [kind for parameter in re.split(r",\s*", parameters.strip(" \n,")) for kind in passed(parameter, names)]
        returned = names.get(result) or NUMBERS[result][0] if result else "void"
        print(f'_Static_assert(_Generic(&{name}, {returned} (*)({", ".join(given)}): 1, default: 0), "{name}: its type");')


def structs_of(header, sources, names, parts, functions=()):
    """The layouts of a header's structs."""
    types = {name: Layout(c, size, size) for name, (c, size) in NUMBERS.items()}
    for name, body in STRUCT.findall("".join((CRATES / source).read_text() for source in sources)):
        layout = types[name] = struct(names.get(name, name), body, types)
        if name not in parts:
            yield layout
    missing = (set(names) | set(parts)) - set(types)
    if missing:
        raise SystemExit(f"{header}: no struct {missing}")


def structs():
    """The layouts of all headers' structs."""
    for one in HEADERS:
        yield from structs_of(*one)


def write_structs():
    """Writes what the structs of all headers have to be."""
    for header, sources, names, parts, _ in HEADERS:
        print(f'#include "{header}"')
        for layout in structs_of(header, sources, names, parts):
            write_fields(layout.name, layout, parts)
            print(f'_Static_assert(sizeof({layout.name}) == {layout.size}, "{layout.name}: its size");')


def main():
    write_structs()
    for header, _, names, _, functions in HEADERS:
        write_functions(header, functions, names)


if __name__ == "__main__":
    main()
