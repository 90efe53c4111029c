#!/usr/bin/env python3
"""Draws a table of growth as a picture: `bench/picture.py N <docs/SPEED.md >PICTURE.svg`, or of what bench/growth.sh prints.

N counts the tables of the section "Growth", from 1. The first column of a table grows from left to right; each other one has a
panel of its own, with its values from zero up. Panels of a table in KiB have one scale, others each their own.
"""
import sys
from xml.sax.saxutils import escape

PANEL = 236
PLOT = 150
LEFT = 46
TOP = 50
GREY, BLUE, LIGHT = "#888", "#36c", "#ddd"


def tables(lines):
    """The tables behind the line of the section, or of all lines where there is none: each a list of rows of cells."""
    if "## Growth" in lines:
        lines = lines[lines.index("## Growth"):]
    found, rows = [], []
    for line in lines + [""]:
        if line.startswith("|"):
            rows.append([cell.strip() for cell in line.strip("|").split("|")])
        elif rows:
            found.append([rows[0]] + rows[2:])
            rows = []
    return found


def number(cell):
    return float(cell.replace(",", ""))


def ceiling(value):
    """The least of 1, 2, 4 and 5 times a power of ten that isn't below a value."""
    power = 1.0
    while power * 10 <= value:
        power *= 10
    while power > value:
        power /= 10
    return next(step * power for step in (1, 2, 4, 5, 10) if step * power >= value)


class Picture:
    """The shapes so far."""

    def __init__(self):
        self.shapes = []

    def text(self, x, y, words, color="#222", anchor="middle"):
        """Words with white around them, so that a line behind them leaves them readable."""
        self.shapes.append(f'<text x="{x:.0f}" y="{y:.0f}" fill="{color}" text-anchor="{anchor}" stroke="#fff" stroke-width="4" '
                           f'paint-order="stroke">{escape(words)}</text>')

    def line(self, x1, y1, x2, y2, color):
        self.shapes.append(f'<line x1="{x1:.0f}" y1="{y1:.0f}" x2="{x2:.0f}" y2="{y2:.0f}" stroke="{color}"/>')


def panel(picture, left, title, names, cells, top):
    """One column: a line through a dot for each value, with the value above it."""
    places = [left + LEFT + 24 + (PANEL - LEFT - 50) * k / (len(cells) - 1) for k in range(len(cells))]
    heights = [TOP + PLOT * (1 - number(cell) / top) for cell in cells]
    picture.text(left + LEFT, TOP - 26, title, anchor="start")
    for k in range(5):
        y = TOP + PLOT * (1 - k / 4)
        picture.line(left + LEFT, y, left + PANEL - 10, y, GREY if k == 0 else LIGHT)
        picture.text(left + LEFT - 6, y + 4, f"{top * k / 4:g}", GREY, "end")
    points = " ".join(f"{x:.0f},{y:.0f}" for x, y in zip(places, heights))
    picture.shapes.append(f'<polyline points="{points}" fill="none" stroke="{BLUE}" stroke-width="2"/>')
    for x, y, name, cell in zip(places, heights, names, cells):
        picture.shapes.append(f'<circle cx="{x:.0f}" cy="{y:.0f}" r="4" fill="{BLUE}"/>')
        picture.text(x - 4, y - 10, cell, BLUE)
        picture.text(x, TOP + PLOT + 17, name, GREY)


def drawn(table):
    """The picture of a table."""
    heads, rows = table[0], table[1:]
    columns = [[row[k] for row in rows] for k in range(len(heads))]
    most = [max(map(number, column)) for column in columns[1:]]
    if any("KiB" in head for head in heads):
        most = [max(most)] * len(most)
    picture = Picture()
    for k, column in enumerate(columns[1:]):
        panel(picture, PANEL * k, heads[k + 1], columns[0], column, ceiling(most[k] * 1.05))
    width, height = PANEL * (len(heads) - 1), TOP + PLOT + 50
    picture.text(LEFT, height - 12, heads[0], GREY, "start")
    head = (f'<svg xmlns="http://www.w3.org/2000/svg" width="{width}" height="{height}" '
            f'viewBox="0 0 {width} {height}" font-family="sans-serif" font-size="12">')
    return "\n".join([head, f'<rect width="{width}" height="{height}" fill="#fff"/>'] + picture.shapes + ["</svg>", ""])


def main():
    for stream in (sys.stdin, sys.stdout):
        stream.reconfigure(encoding="utf-8")
    which = int(sys.argv[1])
    sys.stdout.write(drawn(tables(sys.stdin.read().splitlines())[which - 1]))


if __name__ == "__main__":
    main()
