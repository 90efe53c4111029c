#!/usr/bin/env python3
"""Draws a report as a picture: `examples/picture.py [REPORT] >PICTURE.svg`; without a word it reads standard input.

From left to right are the report's lines, eighty columns in a band, and the next band is below. A lane belongs to an
activation, from its begin to its end; a lane that is free is used again. A legend stands at the end. Where a line is
none of a report, it ends with 1 and says which; a file that can't be read ends it with 3.
"""
from __future__ import annotations

import os
import sys
from typing import Any, Callable, Optional
from xml.sax.saxutils import escape

sys.dont_write_bytecode = True
sys.path.insert(0, os.path.join(os.path.dirname(os.path.dirname(os.path.realpath(__file__))), "python"))
try:
    from romp801 import Failure, NO, files, report as reports, tool
except (ImportError, OSError) as failure:
    print(f"{os.path.basename(__file__)}: the package romp801 can't be read: {failure}", file=sys.stderr)
    sys.exit(3)

LEFT = 110
COLUMN = 44
TOP = 46
LANE = 46
BAND = 80
FREE_AFTER = 3  # columns from an activation's end to the next begin in its lane, for the words at its end
LEGEND = 26
GREY, BLUE, GREEN, RED, ORANGE = "#888", "#36c", "#283", "#c22", "#b60"
ARROWS = {ORANGE: "wait", RED: "cycle"}
STATUSES = (
    "0 the picture is printed; 1 a line is none of a report, or there is none; 2 wrong use; 3 the file can't be read."
)


class Lane:
    """One activation: its name, its row, the columns of its begin and its end, and those from which it waits and from
    which it doesn't."""

    def __init__(self, number: int, name: str, row: int, column: int) -> None:
        self.number, self.name, self.row = number, name, row
        self.begin = column
        self.end: Optional[int] = None
        self.waits: list[list[Optional[int]]] = []

    def is_waiting(self, column: int) -> bool:
        """Whether it waits in front of this column."""
        return any(
            start is not None and start < column <= (stop if stop is not None else column)
            for start, stop in self.waits
        )


class Report:
    """What is in each column, and the lanes."""

    def __init__(self) -> None:
        self.columns: list[list[tuple[Any, ...]]] = []
        self.lanes: dict[int, Lane] = {}
        self.free: list[Optional[int]] = []  # for each row, the column from which it is free, or None
        self.crashed = False

    def new_column(self) -> int:
        """Begins a column, and answers its number."""
        self.columns.append([])
        return len(self.columns) - 1

    def put(self, *item: object) -> None:
        """Puts something into the last column."""
        self.columns[-1].append(item)

    def begin(self, number: int, name: str) -> None:
        """An activation begins, or is refused: it takes the first row that is free."""
        column = self.new_column()
        row = next((row for row, free in enumerate(self.free) if free is not None and free <= column), len(self.free))
        if row == len(self.free):
            self.free.append(None)
        self.free[row] = None
        self.lanes[number] = Lane(number, name, row, column)
        self.put("begin", number)

    def turn(self, number: int, rows: int) -> None:
        """A turn: whoever waited doesn't from here on."""
        column = self.new_column()
        lane = self.lanes[number]
        if lane.waits and lane.waits[-1][1] is None:
            lane.waits[-1][1] = column
        self.put("turn", number, str(rows))

    def over(self, number: int, words: str, color: str) -> None:
        """An activation ends in the last column."""
        lane = self.lanes[number]
        lane.end = len(self.columns) - 1
        self.free[lane.row] = lane.end + FREE_AFTER
        self.put("end", number, words, color)

    def across(self, words: str, color: str) -> None:
        """A line across all lanes, in a column of its own."""
        self.new_column()
        self.put("across", words, color)
        self.new_column()

    def end(self, line: reports.Ended) -> None:
        """A line with which an activation ends, or is refused."""
        if isinstance(line, reports.Refused):
            self.begin(line.activation, line.name)
        if isinstance(line, reports.Lost) and not self.crashed:
            self.across("crash", RED)
        label, color = line.word, RED
        if isinstance(line, reports.Commit):
            label, color = str(line.number), GREEN
        elif isinstance(line, reports.Check):
            label = f"check {line.code}"
        elif isinstance(line, reports.Left):
            color = ORANGE
        self.over(line.activation, label, color)

    def take(self, line: reports.Line) -> None:
        """Takes one line of the report; raises KeyError where its activation hasn't begun."""
        if isinstance(line, reports.Begin):
            self.begin(line.activation, line.name)
        elif isinstance(line, reports.Turn):
            self.turn(line.activation, line.rows)
        elif isinstance(line, reports.Wait):
            self.lanes[line.activation].waits.append([len(self.columns) - 1, None])
            for other in line.holders:
                self.put("arrow", line.activation, self.lanes[other].number, ORANGE)
        elif isinstance(line, reports.Cycle):
            for waiting, other in zip(line.members, line.members[1:]):
                self.put("arrow", self.lanes[waiting].number, self.lanes[other].number, RED)
        elif isinstance(line, reports.Stored):
            self.across(f"checkpoint {line.number}", GREEN)
        elif isinstance(line, reports.Ended):
            self.end(line)
        elif isinstance(line, reports.Closed) or isinstance(line, reports.Open) and self.columns and not self.crashed:
            self.across("closed" if isinstance(line, reports.Closed) else "crash", RED)
        self.crashed = isinstance(line, reports.Lost)


class Band:
    """The columns from one to another, drawn at a height: what lies below, the shapes, and words on top of all."""

    def __init__(self, report: Report, first: int, last: int, top: int) -> None:
        self.report, self.first, self.last, self.top = report, first, last, top
        self.below: list[str] = []
        self.shapes: list[str] = []
        self.words: list[str] = []
        rows = [
            lane.row
            for lane in report.lanes.values()
            if lane.begin < last and (lane.end is None or lane.end >= first)
        ]
        self.height = TOP + LANE * (max(rows, default=0) + 1)
        for lane in report.lanes.values():
            self.draw_lane(lane)
        for column in range(first, last):
            for item in report.columns[column]:
                getattr(self, item[0])(self.x(column), *item[1:])

    def x(self, column: int) -> int:
        """Where a column stands."""
        return LEFT + COLUMN * (column - self.first + 1)

    def y(self, number: int) -> int:
        """The height of an activation's lane."""
        return self.top + TOP + LANE * self.report.lanes[number].row + LANE // 2

    def text(self, x: int, y: int, words: str, color: str = "#222", anchor: str = "middle") -> None:
        """Words with a white edge, so that they can be read on lines."""
        self.words.append(
            f'<text x="{x}" y="{y}" fill="{color}" text-anchor="{anchor}" stroke="#fff" stroke-width="3" '
            f'paint-order="stroke">{escape(words)}</text>'
        )

    def draw_lane(self, lane: Lane) -> None:
        """The lane's line in this band: dashed where the activation waits."""
        end = len(self.report.columns) if lane.end is None else lane.end
        if lane.begin >= self.last or end < self.first:
            return
        if lane.begin < self.first:
            self.text(8, self.y(lane.number) + 4, f"{lane.number} {lane.name}", anchor="start")
        for column in range(max(lane.begin + 1, self.first), min(end, self.last - 1) + 1):
            dashes = ' stroke-dasharray="4 4"' if lane.is_waiting(column) else ""
            x, y = self.x(column), self.y(lane.number)
            self.below.append(
                f'<line x1="{x - COLUMN}" y1="{y}" x2="{x}" y2="{y}" stroke="{GREY}" stroke-width="2"{dashes}/>'
            )

    def begin(self, x: int, number: int) -> None:
        """A bar and the name."""
        y, lane = self.y(number), self.report.lanes[number]
        self.shapes.append(f'<line x1="{x}" y1="{y - 8}" x2="{x}" y2="{y + 8}" stroke="{GREY}" stroke-width="3"/>')
        self.text(x - 2, y - 13, f"{number} {lane.name}", anchor="start")

    def turn(self, x: int, number: int, rows: str) -> None:
        """A box with the rows."""
        y = self.y(number)
        self.shapes.append(
            f'<rect x="{x - 12}" y="{y - 10}" width="24" height="20" rx="3" fill="#fff" '
            f'stroke="{BLUE}" stroke-width="2"/>'
        )
        self.shapes.append(f'<text x="{x}" y="{y + 4}" fill="{BLUE}" text-anchor="middle">{escape(rows)}</text>')

    def arrow(self, x: int, start: int, end: int, color: str) -> None:
        """From one that waits to the other; those of a cycle are bent."""
        y, to = self.y(start), self.y(end)
        shift = 6 if to > y else -6
        bend = x + (14 if color == RED and shift < 0 else -14 if color == RED else 0)
        self.shapes.append(
            f'<path d="M{x} {y + shift} Q{bend} {(y + to) // 2} {x} {to - shift}" '
            f'fill="none" stroke="{color}" stroke-width="2" marker-end="url(#{ARROWS[color]})"/>'
        )

    def end(self, x: int, number: int, words: str, color: str) -> None:
        """A dot or a cross, and words beside it."""
        self.shapes.append(ending(x + 18, self.y(number), color))
        self.text(x + 28, self.y(number) + 4, words, color, "start")

    def across(self, x: int, words: str, color: str) -> None:
        """A line over all lanes of the band."""
        self.below.append(
            f'<line x1="{x}" y1="{self.top + TOP - 8}" x2="{x}" '
            f'y2="{self.top + self.height - 4}" stroke="{color}" stroke-width="2"/>'
        )
        self.text(x, self.top + TOP - 12, words, color)


def ending(x: int, y: int, color: str) -> str:
    """A dot for a commit, and a cross for another end."""
    if color == GREEN:
        return f'<circle cx="{x}" cy="{y}" r="6" fill="{color}"/>'
    return f'<path d="M{x - 5} {y - 5} l10 10 m0 -10 l-10 10" stroke="{color}" stroke-width="3"/>'


def legend(width: int, top: int) -> tuple[list[str], int]:
    """What the signs mean, in as many lines as the width wants; and how high it is."""
    arrow = '<path d="M{x} {y} L{z} {y}" stroke="{color}" stroke-width="2" marker-end="url(#{name})"/>'
    box = '<rect x="{x}" y="{up}" width="24" height="20" rx="3" fill="#fff" stroke="' + BLUE + '" stroke-width="2"/>'
    signs: list[tuple[str, Callable[[int, int], str]]] = [
        ("a turn, with its rows", lambda x, y: box.format(x=x, up=y - 10)),
        ("it waits for that one", lambda x, y: arrow.format(x=x, y=y, z=x + 24, color=ORANGE, name="wait")),
        ("a cycle of waits", lambda x, y: arrow.format(x=x, y=y, z=x + 24, color=RED, name="cycle")),
        ("a commit, with its number", lambda x, y: ending(x + 12, y, GREEN)),
        ("an end without one", lambda x, y: ending(x + 12, y, RED)),
        (
            "waiting",
            lambda x, y: f'<line x1="{x}" y1="{y}" x2="{x + 24}" y2="{y}" stroke="{GREY}" stroke-width="2" '
            'stroke-dasharray="4 4"/>',
        ),
    ]
    shapes: list[str] = []
    x, y = 8, top + LEGEND // 2
    for words, sign in signs:
        long = 40 + 7 * len(words)
        if x > 8 and x + long > width:
            x, y = 8, y + LEGEND
        shapes += [sign(x, y), f'<text x="{x + 32}" y="{y + 4}" fill="#222">{words}</text>']
        x += long
    return shapes, y + LEGEND // 2 - top


def marker(color: str) -> str:
    """An arrow's head."""
    return (
        f'<marker id="{ARROWS[color]}" viewBox="0 0 10 10" refX="9" refY="5" markerWidth="5" markerHeight="5" '
        f'orient="auto"><path d="M0 0 L10 5 L0 10 z" fill="{color}"/></marker>'
    )


def written(report: Report) -> str:
    """The picture's text."""
    width = LEFT + COLUMN * (min(BAND, max(len(report.columns), 8)) + 3)
    top, bands = 0, []
    for first in range(0, max(len(report.columns), 1), BAND):
        bands.append(Band(report, first, min(first + BAND, len(report.columns)), top))
        top += bands[-1].height
    signs, high = legend(width, top + 10)
    height = top + high + 20
    lines = [
        f'<svg xmlns="http://www.w3.org/2000/svg" width="{width}" height="{height}" '
        f'viewBox="0 0 {width} {height}" font-family="sans-serif" font-size="12">',
        f"<defs>{marker(ORANGE)}{marker(RED)}</defs>",
        f'<rect width="{width}" height="{height}" fill="#fff"/>',
    ]
    for band in bands:
        lines += band.below + band.shapes + band.words
    return "\n".join([*lines, *signs, "</svg>", ""])


def main() -> int:
    def add(parser: tool.Parser) -> None:
        parser.add_argument(
            "report",
            metavar="REPORT",
            nargs="?",
            default="-",
            help="a report; standard input where it is - or absent",
        )

    options = tool.arguments(__doc__, STATUSES, add)
    text = tool.standard_input() if options.report == "-" else files.read_bytes(options.report)
    if not text:
        raise Failure("there are no lines", NO)
    found = Report()
    try:
        for place, line in enumerate(reports.read(text.decode("latin-1")), 1):
            found.take(line)
    except reports.NoReport as none:
        raise Failure(f"{none}: {none.line[:60]}", NO) from none
    except KeyError as error:
        raise Failure(f"line {place} is no line of a report: {line}", NO) from error
    sys.stdout.write(written(found))
    return 0


tool.start(main)
