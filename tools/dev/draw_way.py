#!/usr/bin/env python3
"""Draws the way of records through klog as SVG, for the README.

    tools/dev/draw_way.py > docs/pictures/way.svg
"""
import sys

PROVED, GIVEN = "#1a3f8b", "#444444"
HIGH, HALF = 44, 22
# What a box says, its middle, its width, and whether it is proved.
BOXES = {
    "author": (["a user's", "rules or C"], 62, 30, 96, False),
    "producers": (["producers"], 62, 128, 96, False),
    "verifier": (["verifier"], 236, 30, 96, True),
    "log": (["log of an", "input"], 236, 128, 96, True),
    "program": (["the program,", "on each record"], 402, 128, 118, True),
    "rows": (["rows of", "an output"], 566, 128, 96, True),
    "consumers": (["consumers"], 720, 128, 96, False),
}
# From which box an arrow leads to which, and what stands at it.
ARROWS = [
    ("author", "verifier", "compiled"),
    ("verifier", "log", "a mark deploys it"),
    ("producers", "log", "batches"),
    ("log", "program", "in order"),
    ("program", "rows", "once"),
    ("rows", "consumers", "batches"),
]


def text(x, y, words, colour, size, anchor="middle"):
    return f'<text x="{x}" y="{y}" fill="{colour}" font-size="{size}" text-anchor="{anchor}">{words}</text>'


def box(lines, x, y, width, proved):
    """A box with its lines; one that is not proved has no frame."""
    colour = PROVED if proved else GIVEN
    if proved:
        yield (f'<rect x="{x - width // 2}" y="{y - HALF}" width="{width}" height="{HIGH}" rx="8" '
               f'fill="#eef3ff" stroke="{colour}"/>')
    for number, line in enumerate(lines):
        yield text(x, y + 5 - 8 * (len(lines) - 1) + 16 * number, line, colour, 14)


def arrow(start, end, words):
    """An arrow to the right, or down."""
    (_, x, y, wide, _), (_, right, below, wide_end, _) = BOXES[start], BOXES[end]
    if y == below:
        ends = f'x1="{x + wide // 2 + 2}" y1="{y}" x2="{right - wide_end // 2 - 3}" y2="{y}"'
        label = text((x + wide // 2 + right - wide_end // 2) // 2, y - 7, words, GIVEN, 12)
    else:
        ends = f'x1="{x}" y1="{y + HALF + 2}" x2="{x}" y2="{below - HALF - 3}"'
        label = text(x + 8, (y + below) // 2 + 4, words, GIVEN, 12, "start")
    return f'<line {ends} stroke="{GIVEN}" marker-end="url(#head)"/>', label


def drawn():
    yield '<svg xmlns="http://www.w3.org/2000/svg" viewBox="0 0 780 160" width="780" height="160" font-family="sans-serif">'
    yield "<title>From a user's rules or C and producers' batches to rows for consumers</title>"
    yield '<rect width="780" height="160" fill="white"/>'
    yield (f'<marker id="head" viewBox="0 0 8 8" refX="7" refY="4" markerWidth="8" markerHeight="8" orient="auto">'
           f'<path d="M0 0L8 4L0 8z" fill="{GIVEN}"/></marker>')
    for it in BOXES.values():
        yield from box(*it)
    for it in ARROWS:
        yield from arrow(*it)
    yield "</svg>"


def main():
    if len(sys.argv) != 1:
        sys.exit(__doc__)
    print("\n".join(drawn()))


main()
