#!/usr/bin/env python3
"""Draws stops.svg, what a stop within each call of the disk leaves, from the example of docs/PROMISE.md, whose stops the gate makes: stops.py [TO]."""
import os
import re
import sys

HERE = os.path.dirname(os.path.abspath(__file__))
PAGE = f"{HERE}/../PROMISE.md"
# What is found: its colour, and how it is called.
FOUND = {"-": ("#eaeef2", "nothing"), "a": ("#b6d4fe", "a"), "ab": ("#a6e3b8", "a and b")}
ROWS = {"lost": "lost", "came": "on the disk"}
# What the three groups of four calls are for, and the answer after them.
ASKED = [("commit of a", "a is committed"), ("commit of b", "b is committed"), ("force", "")]
LEFT, TOP, CELL, HIGH, GAP = 168, 62, 28, 34, 10


def table():
    """Returns the numbers of the calls, and for each row what is found: within the opening, each call, and later."""
    with open(PAGE, encoding="utf-8") as file:
        drawing = re.search(r"^      opening │.*?^```$", file.read(), re.M | re.S)[0]
    rows = {it.split()[0]: re.sub("[│]", " ", it).split()[1:] for it in drawing.splitlines() if it.split()}
    return rows["call"][1:], {name: rows[name] for name in ROWS}


def places(count):
    """Returns the left edges of all columns: the opening, the calls, four to a group, and later."""
    x = LEFT + 2 * CELL + GAP
    edges = [LEFT]
    for at in range(count):
        edges.append(x)
        x += CELL + (GAP if at % 4 == 3 else 0)
    return [*edges, x]


def text(x, y, words, size=12, anchor="middle", weight="normal"):
    return f'<text x="{x:g}" y="{y:g}" font-size="{size}" text-anchor="{anchor}" font-weight="{weight}">{words}</text>\n'


def drawn():
    calls, found = table()
    edges = places(len(calls))
    wide = edges[-1] + 2 * CELL + 16
    said = "; ".join(f"with the gate {ROWS[name]}: {', '.join(FOUND[it][1] for it in found[name])}" for name in ROWS)
    yield (
        f'<svg xmlns="http://www.w3.org/2000/svg" width="{wide}" height="206" viewBox="0 0 {wide} 206" font-family="sans-serif" font-size="12" role="img">\n'
        f"<title>What is found after a stop within the opening, within each of calls {calls[0]} to {calls[-1]}, and later; {said}</title>\n"
        f'<rect width="{wide}" height="206" fill="#ffffff"/>\n'
    )
    yield text(LEFT + CELL, 34, "opening") + text(edges[-1] + CELL, 34, "later") + text(LEFT - 12, TOP - 10, "stopped within call", 11, "end")
    for group, (asked, answer) in enumerate(ASKED):
        x = edges[1 + 4 * group]
        yield text(x + 2 * CELL, 18, asked, weight="bold")
        yield text(x + CELL, 34, "records", 10) + text(x + 3 * CELL, 34, "their gate", 10)
        if answer:
            end = x + 4 * CELL + GAP / 2
            yield f'<line x1="{end:g}" y1="{TOP - 4}" x2="{end:g}" y2="{TOP + 2 * HIGH + 16}" stroke="#0550ae" stroke-width="2"/>\n'
            yield text(end, TOP + 2 * HIGH + 32, answer, 11)
    for at, call in enumerate(calls):
        yield text(edges[1 + at] + CELL / 2, TOP - 10, call, 11)
    for row, (name, words) in enumerate(ROWS.items()):
        y = TOP + row * (HIGH + 6)
        yield text(LEFT - 12, y + HIGH / 2 + 4, f"the gate {words}", 11, "end")
        for at, keys in enumerate(found[name]):
            width = CELL if 0 < at <= len(calls) else 2 * CELL
            colour, _ = FOUND[keys]
            yield f'<rect x="{edges[at]}" y="{y}" width="{width - 2}" height="{HIGH}" rx="3" fill="{colour}"/>' + text(edges[at] + width / 2 - 1, y + HIGH / 2 + 4, keys)
    x = LEFT
    for colour, words in FOUND.values():
        yield f'<rect x="{x:g}" y="182" width="14" height="14" rx="2" fill="{colour}"/>' + text(x + 20, 194, f"{words} found", 11, "start")
        x += 40 + 6.2 * len(f"{words} found")
    yield text(x, 194, "c never: it was not committed", 11, "start")
    yield "</svg>\n"


if __name__ == "__main__":
    with open(sys.argv[1] if sys.argv[1:] else f"{HERE}/stops.svg", "w", encoding="utf-8") as file:
        file.writelines(drawn())
