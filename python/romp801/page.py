"""A report as a page that steps through it: the steps, made of the report's lines (docs/GUIDE.md, "A first run").

A step is what one event of the schedule printed. The page itself is page.html beside this file; it draws what is told
here, reads no report and asks no network.
"""
from __future__ import annotations

import dataclasses
import html
import json
import pathlib
from typing import Any, Iterable, Mapping, NamedTuple, Optional

from romp801 import lines, report as reports
from romp801.forms import Line
from romp801.format import Store
from romp801.prints import Touch
from romp801.report import NoReport

MARK = "<!-- the report -->"
FREE_AFTER = 2
"""Steps from an activation's end to the next begin in its lane, for the words at its end."""
CHECKS = (
    "",
    "an illegal instruction",
    "an address without a window, or past its segment",
    "a trap",
    "a subject that may be none",
    "more than 4,096 printed bytes",
    "a supervisor call above 2",
    "a store through a window to read",
    "it gave up",
)


class Places(NamedTuple):
    """Where the activations of a run stood, and what the rows there were written as."""

    rows: lines.Places
    stands: lines.Stands


@dataclasses.dataclass
class Activation:
    """An activation as it is drawn: its name, its lane, the steps of its begin and its end, and how it ended."""

    name: str
    lane: int
    begin: int
    end: Optional[int] = None
    how: str = "cut off"
    number: Optional[int] = None
    rows: int = 0
    out: str = ""


@dataclasses.dataclass
class Step:
    """What one event printed, in the report's words and in plain ones, and who is active behind it: each with its rows
    so far and those it waits for."""

    kind: str
    line: int
    text: list[str] = dataclasses.field(default_factory=list)
    said: list[str] = dataclasses.field(default_factory=list)
    who: Optional[int] = None
    rows: int = 0
    arrows: list[tuple[int, int, bool]] = dataclasses.field(default_factory=list)
    ends: list[int] = dataclasses.field(default_factory=list)
    number: int = 0
    active: list[tuple[int, int, tuple[int, ...]]] = dataclasses.field(default_factory=list)


class Steps:
    """The steps of a report; raises NoReport at a line that can't be there."""

    def __init__(self, found: Iterable[Line], places: Optional[Places] = None) -> None:
        self.steps: list[Step] = []
        self.activations: dict[int, Activation] = {}
        self.lanes: list[Optional[int]] = []
        self.active: dict[int, tuple[int, tuple[int, ...]]] = {}
        self.number = 0
        self.places = places
        for place, line in enumerate(found, 1):
            try:
                self._take(place, line)
            except KeyError as error:
                raise NoReport(place, str(line)) from error
        self._close()

    def _close(self) -> None:
        """The step at hand is over: who is active, and at which number the store is."""
        if self.steps:
            self.steps[-1].number = self.number
            self.steps[-1].active = [(it, *state) for it, state in self.active.items()]

    def _begins(self, line: Line) -> Optional[str]:
        """The kind of the step that a line begins, or None where it goes on with the one at hand."""
        kind = self.steps[-1].kind if self.steps else ""
        if isinstance(line, reports.Lost) or isinstance(line, reports.Open) and kind:
            return None if kind == "crash" else "crash"
        if isinstance(line, reports.Left):
            return None if kind == "left" else "left"
        if isinstance(line, reports.Finish):
            return None if kind else "end"
        starts = (reports.Open, reports.Begin, reports.Refused, reports.Idle, reports.Turn, reports.Stored)
        return line.form.split(" ")[0] if isinstance(line, starts) or not kind else None

    def _take(self, place: int, line: Line) -> None:
        """Takes one line; raises KeyError where its activation isn't active."""
        kind = self._begins(line)
        if kind is not None:
            self._close()
            self.steps.append(Step(kind, place))
        step = self.steps[-1]
        step.text.append(str(line))
        if isinstance(line, (reports.Begin, reports.Refused)):
            self._begin(line.activation, line.name)
        if isinstance(line, reports.Turn):
            rows, _ = self.active[line.activation]
            self.active[line.activation] = rows + line.rows, ()
            step.who, step.rows = line.activation, line.rows
        elif isinstance(line, reports.Wait):
            self.active[line.activation] = self.active[line.activation][0], line.holders
            step.arrows += [(line.activation, it, False) for it in line.holders]
        elif isinstance(line, reports.Cycle):
            step.arrows += [(one, other, True) for one, other in zip(line.members, line.members[1:])]
        elif isinstance(line, (reports.Open, reports.Stored, reports.Finish)):
            self.number = line.number
        elif isinstance(line, reports.Closed):
            step.kind = "closed"
        elif isinstance(line, reports.Ended):
            self._end(line)
        step.said.append(self._words(line) + self._where(place, line))

    def _where(self, place: int, line: Line) -> str:
        """At which row one waits or was checked, as that was written."""
        if self.places is None or not isinstance(line, (reports.Wait, reports.Check)):
            return ""
        waits = self.places.stands.waits
        address = line.address if isinstance(line, reports.Check) else waits.get(place)
        row = self.places.rows.told(self.activations[line.activation].name, address) if address is not None else ""
        return f" It is at {row}" if row else ""

    def _begin(self, number: int, name: str) -> None:
        """An activation begins in the first lane that is free."""
        at = len(self.steps) - 1
        lane = next((it for it, free in enumerate(self.lanes) if free is not None and free <= at), len(self.lanes))
        self.lanes[lane : lane + 1] = [None]
        self.activations[number] = Activation(name, lane, at)
        self.active[number] = 0, ()

    def _end(self, line: reports.Ended) -> None:
        """An activation ended in the step at hand."""
        rows, _ = self.active.pop(line.activation)
        it = self.activations[line.activation]
        it.end, it.how, it.rows = len(self.steps) - 1, line.word, rows
        self.lanes[it.lane] = it.end + FREE_AFTER
        self.steps[-1].ends.append(line.activation)
        if isinstance(line, reports.Commit):
            it.number, it.rows, it.out = line.number, line.steps, line.out.hex()
            self.number = line.number
        elif isinstance(line, reports.Check):
            it.how = f"check {line.code}"

    def _name(self, number: int) -> str:
        """An activation, by its number and name."""
        it = self.activations.get(number)
        return f"{number} {it.name}" if it else str(number)

    def _words(self, line: Line) -> str:
        """A line in plain words."""
        if isinstance(line, reports.Open):
            return f"The store is open. It has had {line.number} commits."
        if isinstance(line, reports.Begin):
            return f"{self._name(line.activation)} begins."
        if isinstance(line, reports.Idle):
            return f"A turn of {self._name(line.activation)}, which isn't active."
        if isinstance(line, reports.Turn):
            came = f"{line.pages} {'page' if line.pages == 1 else 'pages'} came in"
            asked = f"it asked {line.locks} {'time' if line.locks == 1 else 'times'} for a line"
            rows = f"{line.rows} {'instruction' if line.rows == 1 else 'instructions'}"
            return f"{self._name(line.activation)} runs {rows}; {came}, and {asked}."
        if isinstance(line, reports.Wait):
            return f"It waits for {', '.join(map(self._name, line.holders))}."
        if isinstance(line, reports.Cycle):
            return f"A cycle of waits: {', then '.join(map(self._name, line.members))}."
        if isinstance(line, reports.Stored):
            return f"A checkpoint: the store is brought home at {line.number}."
        if isinstance(line, reports.Closed):
            return "The disk failed, and the run is over."
        if isinstance(line, reports.Finish):
            return f"The end. The store is at {line.number}."
        assert isinstance(line, reports.Ended)
        return f"{self._name(line.activation)} {_ending(line)}"


def _ending(line: reports.Ended) -> str:
    """How an activation ended, in plain words."""
    gone = "Nothing of it stays."
    if isinstance(line, reports.Commit):
        printed = f" It printed {line.out.hex()}." if line.out else ""
        return f"commits. It is durable, and the store is at {line.number}.{printed}"
    if isinstance(line, reports.Check):
        what = CHECKS[line.code] if line.code < len(CHECKS) else "no code of a check"
        return f"ends with check {line.code}, {what}, at {line.address:08x}. {gone}"
    if isinstance(line, reports.Journal):
        return f"would write {line.lines} lines, and a commit has at most {line.limit}. {gone}"
    if isinstance(line, reports.NoSegment):
        return f"can't begin: the store has no segment {line.segment}."
    words = {
        "busy": "can't begin: sixteen are active.",
        "victim": "is the youngest of the cycle. What it did is forgotten, and its lines are given back.",
        "disk": f"touched a page that can't be read. {gone}",
        "doubt": "may have committed, or not: its record wasn't made sure.",
        "lost": "is lost in the crash.",
        "left": f"hadn't ended when the schedule did. {gone}",
    }
    return words[line.word]


def lines_of(store: Store) -> dict[str, bytes]:
    """Each line of a store, by its segment and its offset there in hexadecimal, in their order."""
    return {
        f"{segment}:{at:04x}": content[at : at + store.line]
        for segment, content in store.content().items()
        for at in range(0, len(content), store.line)
    }


def _held(lines: Mapping[str, bytes], behind: Mapping[int, Mapping[int, bytes]]) -> dict[str, Any]:
    """What the lines that a run changes held first, and which of them each commit changed."""
    names = list(lines)
    first = sorted({it for changed in behind.values() for it in changed})
    return {
        "first": {names[it]: lines[names[it]].hex() for it in first},
        "changes": [
            [number, {names[it]: data.hex() for it, data in changed.items()}] for number, changed in behind.items()
        ],
    }


def page(
    title: str,
    found: reports.Report,
    traces: Mapping[int, list[Touch]],
    store: Optional[Store] = None,
    behind: Optional[Mapping[int, Mapping[int, bytes]]] = None,
    places: Optional[Places] = None,
) -> str:
    """The page of a report. `traces` has what some of its activations touched, `store` is a copy of the store from
    before the run, which says where lines lie, `behind` has the lines that each commit changed, by the number behind
    it (romp801.held), and `places` tells where activations stood; raises NoReport where the report can't be."""
    steps = Steps(found.lines, places)
    lines = lines_of(store) if store is not None else {}
    names = list(lines)

    def written(number: int, step: int) -> list[str]:
        path = places.stands.steps.get(number, []) if places is not None else []
        if places is None or step > len(path):
            return []
        return [places.rows.told(found.names[number], path[step - 1])]

    data: dict[str, Any] = {
        "title": title,
        "steps": [dataclasses.asdict(it) for it in steps.steps],
        "activations": {number: dataclasses.asdict(it) for number, it in steps.activations.items()},
        "lanes": len(steps.lanes),
        "whole": found.number is not None,
        "traces": {
            number: [
                [
                    it.step,
                    it.how,
                    names[it.index] if it.index < len(names) else str(it.index),
                    *written(number, it.step),
                ]
                for it in touches
            ]
            for number, touches in traces.items()
        },
        "held": _held(lines, behind) if behind else None,
    }
    text = json.dumps(data, separators=(",", ":")).replace("<", "\\u003c")
    form = pathlib.Path(__file__).with_name("page.html").read_text(encoding="utf-8")
    made = f'<script id="data" type="application/json">{text}</script>'
    return form.replace("<!-- the title -->", html.escape(title)).replace(MARK, made)
