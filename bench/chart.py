#!/usr/bin/env python3
"""chart.py FIGURES SVG: draws the figures of measure.py, instructions a token of each kind of list, as bars."""
import json
import sys

from lists import KINDS

# A program's name, its measures' first word, and its class in the drawing.
PROGRAMS = [("this library", "place", "ours"), ("unsafe-libyaml", "unsafe", "unsafe"), ("libyaml", "libyaml", "libyaml")]
LABELS, PANEL, GAP = 270, 300, 60
BAR, ROW, TOP = 10, 42, 64
MOST = 1200  # where a bar is cut; its number says how long it would be

STYLE = """
text { font: 12px sans-serif; fill: #24292f }
.number { font-size: 10px; fill: #57606a }
.head { font-weight: bold }
.axis { stroke: #8c959f; stroke-width: 1 }
.ours { fill: #1f6feb } .unsafe { fill: #d4842a } .libyaml { fill: #8c959f }
@media (prefers-color-scheme: dark) {
  text { fill: #e6edf3 } .number { fill: #9da7b1 } .axis { stroke: #6e7681 }
  .ours { fill: #4493f8 } .unsafe { fill: #e3a04f } .libyaml { fill: #7d8590 }
}"""


def bar(x, y, value, name):
    """A bar from x on with its number after it; one that is too long ends in a point."""
    width = PANEL * min(value, MOST) / MOST
    shape = f'<rect class="{name}" x="{x}" y="{y}" width="{width:.1f}" height="{BAR}"/>'
    if value > MOST:
        end = x + width
        points = f"{end:.1f},{y} {end + 7:.1f},{y + BAR / 2:g} {end:.1f},{y + BAR}"
        shape += f'<polygon class="{name}" points="{points}"/>'
        width += 7
    return shape + f'<text class="number" x="{x + width + 4:.1f}" y="{y + BAR - 1}">{value:,.0f}</text>'


def panel(x, what, figures, height):
    """The bars of events or of nodes."""
    yield f'<text class="head" x="{x}" y="{TOP - 14}">{what}, instructions a token</text>'
    yield f'<line class="axis" x1="{x}" y1="{TOP - 4}" x2="{x}" y2="{height - 10}"/>'
    for row, measured in enumerate(figures.values()):
        for place, (_, word, name) in enumerate(PROGRAMS):
            value = measured[f"{word} {what}"]
            if value is not None:
                yield bar(x, TOP + row * ROW + place * (BAR + 1), value, name)


def legend():
    x = LABELS
    for title, _, name in PROGRAMS:
        yield f'<rect class="{name}" x="{x}" y="14" width="12" height="12"/><text x="{x + 18}" y="24">{title}</text>'
        x += 140


def drawing(figures):
    height = TOP + ROW * len(figures) + 10
    width = LABELS + 2 * (PANEL + GAP)
    yield f'<svg xmlns="http://www.w3.org/2000/svg" viewBox="0 0 {width} {height}" role="img">'
    yield "<title>Instructions a token: this library, unsafe-libyaml and libyaml, for each kind of list</title>"
    yield f"<style>{STYLE}\n</style>"
    yield from legend()
    for row, kind in enumerate(figures):
        yield f'<text x="{LABELS - 10}" y="{TOP + row * ROW + 20}" text-anchor="end">{KINDS[kind]}</text>'
    yield from panel(LABELS, "events", figures, height)
    yield from panel(LABELS + PANEL + GAP, "nodes", figures, height)
    yield "</svg>"


def main():
    if len(sys.argv) != 3:
        sys.exit("usage: chart.py FIGURES SVG")
    with open(sys.argv[1], encoding="ascii") as read:
        figures = json.load(read)
    with open(sys.argv[2], "w", encoding="ascii") as written:
        written.write("\n".join(drawing(figures)) + "\n")


if __name__ == "__main__":
    main()
