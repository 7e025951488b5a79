#!/usr/bin/env python3
"""Draws what bench/chains.sh measured as a picture: for each chain and text a bar, as long as the chain is fast.

    bench/draw.py [TABLE [PICTURE]]

TABLE is bench/chains.txt where none is given: lines that begin with '#' say where and when it was measured, and the
rest is what bench/chains.sh printed. PICTURE is bench/chains.svg. A bar is the rate as a multiple of iconv(3)'s in the
same row, and the line across all bars is iconv(3) itself. Bars beyond the greatest multiple that is drawn are cut, and
the number beside each one is exact.
"""
import os
import re
import sys
from xml.sax.saxutils import escape

HERE = os.path.dirname(os.path.realpath(__file__))
ROW = re.compile(r"(\S+ -> \S+)\s+(\w+)\s+(\d+)\s+(\d+)\s")
BAR, GAP, HEAD, LEFT, UNIT, MOST = 14, 10, 58, 250, 42, 12


def read(name):
    """The notes of a table, and for each chain its texts with both rates."""
    notes, chains = [], {}
    with open(name, encoding="utf-8") as table:
        for line in table:
            found = ROW.match(line)
            if line.startswith("#"):
                notes.append(line[1:].strip())
            elif found:
                chains.setdefault(found[1], []).append((found[2], int(found[3]), int(found[4])))
    return notes, chains


def text(x, y, content, more=""):
    return f'<text x="{x}" y="{y}"{more}>{escape(content)}</text>'


def draw(notes, chains):
    """The lines of the picture."""
    count = sum(len(rows) for rows in chains.values())
    width, height = LEFT + UNIT * MOST + 120, HEAD + count * (BAR + 4) + len(chains) * GAP + 40
    yield f'<svg xmlns="http://www.w3.org/2000/svg" width="{width}" height="{height}" font-family="sans-serif">'
    yield f'<rect width="{width}" height="{height}" fill="#ffffff"/>'
    yield "<style>text { font-size: 12px; fill: #222222 } .small { font-size: 10px; fill: #666666 }</style>"
    yield text(10, 20, "Chains in memory, as a multiple of iconv(3) on the same text", ' style="font-size: 15px"')
    for at, note in enumerate(notes[:2]):
        yield text(10, 36 + 12 * at, note, ' class="small"')
    y = HEAD
    for chain, rows in chains.items():
        y += GAP
        yield text(10, y + BAR - 3, chain.replace("->", "to"))
        for kind, ours, theirs in rows:
            ratio = ours / theirs if theirs else 0
            long = round(UNIT * min(ratio, MOST))
            color = "#2a7fb8" if ratio >= 1 else "#c0504d"
            yield text(LEFT - 8, y + BAR - 3, kind, ' text-anchor="end"')
            yield f'<rect x="{LEFT}" y="{y}" width="{long}" height="{BAR}" fill="{color}"/>'
            yield text(LEFT + long + 6, y + BAR - 3, f"{ratio:.1f}  ({ours} MB/s)", ' class="small"')
            y += BAR + 4
    x = LEFT + UNIT
    yield f'<line x1="{x}" y1="{HEAD}" x2="{x}" y2="{y + 6}" stroke="#222222" stroke-dasharray="4 3"/>'
    yield text(x, y + 20, "iconv(3)", ' class="small" text-anchor="middle"')
    yield "</svg>"


def main(table=f"{HERE}/chains.txt", picture=f"{HERE}/chains.svg"):
    notes, chains = read(table)
    if not chains:
        sys.exit(f"{table} has no row of bench/chains.sh")
    with open(picture, "w", encoding="utf-8") as out:
        out.write("\n".join(draw(notes, chains)) + "\n")


main(*sys.argv[1:3])
