#!/usr/bin/env python3
"""Draws docs/grid.svg: how far the hole is off against the distance of the job from zero.

    docs/grid.py            write the drawing
    docs/grid.py --check    say whether the file is as this script makes it; exit status 1 if not

The figures are those of docs/grid.tsv, which bench/using/run.sh measures. Both axes are
logarithmic."""

import math
import os
import sys

HERE = os.path.dirname(os.path.abspath(__file__))
TABLE = os.path.join(HERE, "grid.tsv")
DRAWING = os.path.join(HERE, "grid.svg")

WIDTH, HEIGHT = 820, 576
# the two panels: left edges, width, top and bottom
LEFTS, PANEL, TOP, BOTTOM = (112, 474), 326, 60, 424
# the axes' ends, in metres and millimetres
NEAR, FAR, LEAST, MOST = 8e4, 4.5e7, 1e-11, 1e1
KILOMETRES = (100, 300, 1000, 6000, 33000)
LIMIT = 0.5
INK, GREY, RULE = "#202020", "#606060", "#dddddd"
# of each way its name in the table, the words for it, its colour, and by how much its lines are
# broader: the second lies under the third in part, and the fourth on it, as rings
RINGS = "about, trued"
WAYS = (
    ("plain, trued", "plain solve, R made exact by a unit quaternion", "#c02020", 0),
    ("plain", "plain solve, R·x + t as pushed", "#8fb0f4", 3.5),
    ("about", "about the first target, R·(x − origin) + t as pushed", "#187818", 0),
    (RINGS, "the same, R made exact by a unit quaternion", "#b06000", 0),
)
# of each figure its column, the words for it, the breadth of its lines and their dashes
FIGURES = (
    ("most, mm", "most", 2.5, "none"),
    ("99.9%, mm", "99.9% are below", 1.2, "5 3"),
    ("median, mm", "median", 1.2, "none"),
)
PANELS = (("0", "bearings normalised in double"), ("2e-12", "bearings' lengths off by up to 2e-12"))


def rows(text):
    """The table's rows, each by the names of its columns."""
    names, *lines = [line.split("\t") for line in text.splitlines()]
    return [dict(zip(names, line)) for line in lines]


def across(left, metres):
    return left + PANEL * math.log(metres / NEAR) / math.log(FAR / NEAR)


def down(millimetres):
    return BOTTOM - (BOTTOM - TOP) * math.log(millimetres / LEAST) / math.log(MOST / LEAST)


def words(x, y, text, more=""):
    return f'<text x="{x:.1f}" y="{y:.1f}" fill="{INK}" {more}>{text}</text>'


def curve(points, colour, width=1.0, dashes="none"):
    path = " L".join(f"{x:.1f},{y:.1f}" for x, y in points)
    style = f'stroke="{colour}" stroke-width="{width}" stroke-dasharray="{dashes}"'
    return f'<path d="M{path}" {style} fill="none"/>'


def rings(points, colour):
    for x, y in points:
        yield f'<circle cx="{x:.1f}" cy="{y:.1f}" r="3" stroke="{colour}" fill="none"/>'


def plain_number(power):
    """A power of ten without an exponent."""
    return f"{10.0 ** power:.{max(-power, 0)}f}"


def error_axis(left):
    """A rule at every hundredfold error, with its number beside the first panel."""
    for power in range(-10, 2, 2):
        y = down(10.0**power)
        yield curve([(left, y), (left + PANEL, y)], RULE)
        if left == LEFTS[0]:
            yield words(left - 8, y + 4, plain_number(power), 'text-anchor="end"')
    y = down(LIMIT)
    yield curve([(left, y), (left + PANEL, y)], INK, 1.0, "2 3")
    yield words(left + 6, y + 15, f"{LIMIT} mm")


def distance_axis(left):
    for kilometres in KILOMETRES:
        x = across(left, kilometres * 1000)
        yield curve([(x, TOP), (x, BOTTOM)], RULE)
        yield words(x, BOTTOM + 18, f"{kilometres:,}", 'text-anchor="middle"')
    middle = left + PANEL / 2
    yield words(middle, BOTTOM + 38, "distance of the job from zero, km", 'text-anchor="middle"')


def panel(table, left, part, title):
    yield from distance_axis(left)
    yield from error_axis(left)
    corners = [(left, TOP), (left + PANEL, TOP), (left + PANEL, BOTTOM), (left, BOTTOM)]
    yield curve(corners + corners[:1], GREY)
    yield words(left + PANEL / 2, TOP - 10, title, 'text-anchor="middle" font-weight="bold"')
    for way, _, colour, broader in WAYS:
        of = [r for r in table if r["way"] == way and r["lengths off by up to"] == part]
        for column, _, width, dashes in FIGURES:
            points = [(across(left, float(r["distance, m"])), down(float(r[column]))) for r in of]
            if way == RINGS:
                yield from rings(points, colour)
            else:
                yield curve(points, colour, width + broader, dashes)


def legend():
    top, ways, figures = BOTTOM + 66, LEFTS[0], LEFTS[1] + 140
    for i, (way, text, colour, broader) in enumerate(WAYS):
        y = top + 22 * i
        if way == RINGS:
            yield from rings([(ways + 4 + 12 * k, y - 4) for k in range(3)], colour)
        else:
            yield curve([(ways, y - 4), (ways + 32, y - 4)], colour, 2.5 + broader)
        yield words(ways + 42, y, text)
    for i, (_, text, width, dashes) in enumerate(FIGURES):
        y = top + 22 * i
        yield curve([(figures, y - 4), (figures + 40, y - 4)], INK, width, dashes)
        yield words(figures + 50, y, text)


def drawing(text):
    table = rows(text)
    parts = [
        f'<svg xmlns="http://www.w3.org/2000/svg" viewBox="0 0 {WIDTH} {HEIGHT}" '
        f'width="{WIDTH}" height="{HEIGHT}" font-family="sans-serif" font-size="13">',
        "<title>How far the hole is off against the distance of the job from zero</title>",
        f'<rect width="{WIDTH}" height="{HEIGHT}" fill="white"/>',
        words(12, 26, "hole off by, mm", 'font-weight="bold"'),
    ]
    for left, (part, title) in zip(LEFTS, PANELS):
        parts += panel(table, left, part, title)
    return "\n".join([*parts, *legend(), "</svg>"]) + "\n"


def main(words):
    if words not in ([], ["--check"]):
        sys.exit(__doc__)
    with open(TABLE, encoding="utf-8") as file:
        made = drawing(file.read())
    if not words:
        with open(DRAWING, "w", encoding="utf-8") as file:
            file.write(made)
        return
    with open(DRAWING, encoding="utf-8") as file:
        if file.read() != made:
            sys.exit("docs/grid.svg differs from what docs/grid.py makes")


if __name__ == "__main__":
    main(sys.argv[1:])
