#!/usr/bin/env python3
"""Draws grows.svg, what a key costs as a store grows, from the table of docs/GUIDE.md, "Speed": grows.py [TO]."""
import math
import os
import re
import sys

HERE = os.path.dirname(os.path.abspath(__file__))
PAGE = f"{HERE}/../GUIDE.md"
HEAD = "| Keys | Insert, 64 a commit | by LMDB | by SQLite | Look-up | by LMDB | by SQLite |"
# Name in the picture, and colour.
LINES = [("this store", "#0550ae"), ("LMDB", "#57606a"), ("SQLite", "#cf222e")]
PANELS = ["an insert, 64 a commit", "a look-up"]
WIDE, HIGH, LEFT, TOP, BETWEEN = 210, 180, 44, 40, 110


def figures():
    """Returns how many keys each row has, and for each panel the three lines' figures."""
    with open(PAGE, encoding="utf-8") as file:
        rows = file.read().split(HEAD)[1].split("\n\n")[0].strip().splitlines()[1:]
    cells = [[float(it.replace(",", "")) for it in row.strip("|").split("|")] for row in rows]
    keys, *columns = zip(*cells)
    return keys, [columns[:3], columns[3:]]


def named(lines, place):
    """The heights of the lines' names: beside their ends, and none over another."""
    ends = sorted((place(line[-1]), at) for at, line in enumerate(lines))
    heights, last = {}, -math.inf
    for y, at in ends:
        last = heights[at] = max(y, last + 14)
    return heights


def panel(left, title, keys, lines):
    most = max(max(it) for it in lines)
    step = next(it for it in (0.5, 1, 2, 5, 10, 20, 50) if most / it <= 5)
    top = math.ceil(most / step) * step

    def along(count):
        return left + WIDE * math.log(count / keys[0]) / math.log(keys[-1] / keys[0])

    def height(cost):
        return TOP + HIGH * (1 - cost / top)

    yield f'<text x="{left + WIDE / 2:g}" y="18" text-anchor="middle" font-weight="bold">{title}</text>\n'
    for at in range(round(top / step) + 1):
        y = height(at * step)
        yield f'<line x1="{left}" y1="{y:.1f}" x2="{left + WIDE}" y2="{y:.1f}" stroke="#d0d7de"/><text x="{left - 6}" y="{y + 4:.1f}" text-anchor="end">{at * step:g}</text>\n'
    for count in (10_000, 100_000, 1_000_000, 10_000_000):
        if keys[0] * 0.9 <= count <= keys[-1]:
            yield f'<text x="{along(count):.1f}" y="{TOP + HIGH + 18}" text-anchor="middle">{count:,}</text>\n'
    heights = named(lines, height)
    for at, ((name, colour), line) in enumerate(zip(LINES, lines)):
        points = [f"{along(count):.1f},{height(cost):.1f}" for count, cost in zip(keys, line)]
        width, weight = (3, ' font-weight="bold"') if at == 0 else (1.5, "")
        yield f'<polyline points="{" ".join(points)}" fill="none" stroke="{colour}" stroke-width="{width}"/>\n'
        for it in points:
            x, y = it.split(",")
            yield f'<circle cx="{x}" cy="{y}" r="3" fill="{colour}"/>\n'
        yield f'<text x="{left + WIDE + 8}" y="{heights[at] + 4:.1f}" fill="{colour}"{weight}>{name}</text>\n'


def drawn():
    keys, panels = figures()
    wide, high = LEFT + 2 * WIDE + BETWEEN + 88, TOP + HIGH + 50
    said = "; ".join(
        f"{title}: " + ", ".join(f"{name} {' '.join(f'{it:g}' for it in line)}" for (name, _), line in zip(LINES, lines)) for title, lines in zip(PANELS, panels)
    )
    yield (
        f'<svg xmlns="http://www.w3.org/2000/svg" width="{wide}" height="{high}" viewBox="0 0 {wide} {high}" font-family="sans-serif" font-size="12" role="img">\n'
        f"<title>Microseconds of processor with {', '.join(f'{it:,.0f}' for it in keys)} keys, of {said}</title>\n"
        f'<rect width="{wide}" height="{high}" fill="#ffffff"/>\n'
    )
    for at, (title, lines) in enumerate(zip(PANELS, panels)):
        yield from panel(LEFT + at * (WIDE + BETWEEN), title, keys, lines)
    yield f'<text x="{wide / 2:g}" y="{high - 10}" text-anchor="middle">keys in the store, at random, on a logarithmic axis; microseconds of processor each</text>\n'
    yield "</svg>\n"


if __name__ == "__main__":
    with open(sys.argv[1] if sys.argv[1:] else f"{HERE}/grows.svg", "w", encoding="utf-8") as file:
        file.writelines(drawn())
