#!/usr/bin/env python3
"""Draws commits.svg, commits a second over threads, from the figures at the head of crates/im_bench_commits: commits.py [TO]."""
import math
import os
import re
import sys

HERE = os.path.dirname(os.path.abspath(__file__))
FIGURES = f"{HERE}/../../crates/im_bench_commits/src/main.rt"
# Row of the figures, name in the picture, colour, how far its name is moved down.
LINES = [
    ("RocksDB 7.8.3", "RocksDB", "#9a6700", 0),
    ("`group`", "this store", "#0550ae", 0),
    ("Berkeley DB 5.3.28", "Berkeley DB", "#8250df", 0),
    ("WiredTiger 3.2.1", "WiredTiger", "#1a7f37", 8),
    ("SQLite 3.40.1, WAL", "SQLite", "#cf222e", 0),
    ("LMDB 0.9.24", "LMDB", "#57606a", 8),
]
THREADS = [1, 4, 16, 64]
LEFT, TOP, WIDE, HIGH = 70, 24, 430, 250
LEAST, MOST = 100, 50_000


def figures():
    with open(FIGURES, encoding="utf-8") as file:
        text = file.read()
    found = {}
    for row, *_ in LINES:
        cells = re.search(rf"^//! \| {re.escape(row)} \|(.*)\|$", text, re.M)[1].split("|")
        found[row] = [int(re.match(r"[\d,]*\d(?=,? |$|, )", it.strip())[0].replace(",", "")) for it in cells]
    return found


def place(threads, commits):
    x = LEFT + WIDE * math.log(threads) / math.log(THREADS[-1])
    y = TOP + HIGH * (1 - math.log(commits / LEAST) / math.log(MOST / LEAST))
    return f"{x:.1f}", f"{y:.1f}"


def drawn():
    found = figures()
    said = "; ".join(f"{name} {', '.join(f'{it:,}' for it in found[row])}" for row, name, *_ in LINES)
    yield (
        f'<svg xmlns="http://www.w3.org/2000/svg" width="620" height="330" viewBox="0 0 620 330" font-family="sans-serif" font-size="12" role="img">\n'
        f"<title>Commits a second with 1, 4, 16 and 64 threads: {said}</title>\n"
        '<rect width="620" height="330" fill="#ffffff"/>\n'
    )
    for commits in (100, 1_000, 10_000):
        _, y = place(1, commits)
        yield f'<line x1="{LEFT}" y1="{y}" x2="{LEFT + WIDE}" y2="{y}" stroke="#d0d7de"/><text x="{LEFT - 8}" y="{float(y) + 4:.1f}" text-anchor="end">{commits:,}</text>\n'
    for threads in THREADS:
        x, _ = place(threads, LEAST)
        yield f'<text x="{x}" y="{TOP + HIGH + 18}" text-anchor="middle">{threads}</text>\n'
    yield f'<text x="{LEFT + WIDE / 2}" y="{TOP + HIGH + 40}" text-anchor="middle">threads, an insert a commit; synced commits a second; both axes logarithmic</text>\n'
    for row, name, colour, down in LINES:
        points = [place(*it) for it in zip(THREADS, found[row])]
        width = 3 if name == "this store" else 1.5
        yield f'<polyline points="{" ".join(",".join(it) for it in points)}" fill="none" stroke="{colour}" stroke-width="{width}"/>\n'
        for x, y in points:
            yield f'<circle cx="{x}" cy="{y}" r="3" fill="{colour}"/>\n'
        x, y = points[-1]
        weight = ' font-weight="bold"' if name == "this store" else ""
        yield f'<text x="{float(x) + 10:.1f}" y="{float(y) + 4 + down:.1f}" fill="{colour}"{weight}>{name}</text>\n'
    yield "</svg>\n"


if __name__ == "__main__":
    with open(sys.argv[1] if sys.argv[1:] else f"{HERE}/commits.svg", "w", encoding="utf-8") as file:
        file.writelines(drawn())
