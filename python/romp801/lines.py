"""Where a program stands in a job's text: the row at an address, the line of C that it was compiled from, and the rows
at which a run's activations wait.

tools/compile writes the line of C above its rows, as a comment `; FILE:LINE: TEXT`.
"""
from __future__ import annotations

import re
from typing import Iterator, NamedTuple, Optional

from romp801 import job, report as reports
from romp801.format import Store
from romp801.machine import Activation
from romp801.prints import Image

SOURCE = re.compile(r"; ([^;\s:][^;:]*:[0-9]+)(?:: (.*))?$")
LONGEST = 5_000_000
"""Rows that are run again to find where programs wait."""


class Line(NamedTuple):
    """A line of a program: its program's name, its address, how many bytes it makes, its number in the job, its text,
    and the line of C that it belongs to."""

    name: str
    at: int
    size: int
    number: int
    text: str
    source: str

    @property
    def told(self) -> str:
        """What it was written as: its line of C, or itself."""
        if self.source:
            return self.source
        words = job.words_of(self.text)
        return " ".join(words[1:] if words and words[0].endswith(":") else words)


def lines_of(text: bytes) -> Iterator[Line]:
    """Each line of the programs of a job, in their order."""
    name: Optional[str] = None
    at, source = 0, ""
    for number, line in enumerate(text.decode("latin-1").split("\n"), 1):
        tokens = job.tokens_of(line)
        if name is None:
            if tokens[:1] == ["program"]:
                name, at, source = tokens[1], 0, ""
            continue
        if tokens == ["end"]:
            name = None
            continue
        comment = SOURCE.match(line) if not tokens else None
        if comment:
            source = comment[1] + (f": {comment[2].strip()}" if comment[2] else "")
        elif tokens[:1] == [".part"]:
            source = ""
        size = job.size_of(tokens[2:] if tokens[1:2] == [":"] else tokens)
        yield Line(name, at, size, number, line.rstrip(), source)
        at += size


class Places:
    """The rows of a job's programs, by their addresses."""

    def __init__(self, text: bytes) -> None:
        self.rows = {(it.name, it.at): it for it in lines_of(text) if it.size}

    def told(self, name: str, address: int) -> str:
        """What a row was written as; nothing where there is none."""
        found = self.rows.get((name, address))
        return job.shown(found.told) if found else ""


class Stands(NamedTuple):
    """Where the activations of a run stood: behind each line of the report that is a wait, by its place from 1, and
    before each step of those that committed."""

    waits: dict[int, int]
    steps: dict[int, list[int]]


class Again:
    """Runs a report's turns again, on what the store had before them."""

    def __init__(self, found: reports.Report, begun: job.Job, images: dict[str, Image], store: Store) -> None:
        self.content = {segment: bytearray(data) for segment, data in store.content().items()}
        self.begins = [it for it in begun.events if isinstance(it, job.Begin)]
        self.found, self.images = found, images
        self.active: dict[int, Activation] = {}
        self.path: dict[int, list[int]] = {}

    def run(self) -> Stands:
        """All turns, in the report's order."""
        waits: dict[int, int] = {}
        left = LONGEST
        for place, line in enumerate(self.found.lines, 1):
            if isinstance(line, reports.Begin):
                image = self.images[line.name]
                values = self.begins[line.activation - 1].values
                self.active[line.activation] = Activation(image, values, self.content)
                self.path[line.activation] = []
            elif isinstance(line, reports.Turn):
                left -= line.rows
                if left < 0:
                    break
                self._turn(line)
            elif isinstance(line, reports.Wait) and line.activation in self.active:
                waits[place] = self.active[line.activation].at
            elif isinstance(line, reports.Ended):
                self._end(line)
        return Stands(waits, self.path)

    def _turn(self, line: reports.Turn) -> None:
        it, path = self.active[line.activation], self.path[line.activation]
        for _ in range(line.rows):
            path.append(it.at)
            it.step()

    def _end(self, line: reports.Ended) -> None:
        it = self.active.pop(line.activation, None)
        if it is not None and isinstance(line, reports.Commit):
            for (segment, at), byte in it.written.items():
                self.content[segment][at] = byte
        elif it is not None:
            del self.path[line.activation]
