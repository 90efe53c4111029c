"""Reports as objects: a class for each sort of line, and what a report tells in all (docs/FORMATS.md, "Report").

`read` and `str` are each other's way back: what is read is written again as it was. Numbers are whole; `number` is the
store's, ROWS and STEPS count instructions, and an address is an offset in bytes in the program's image.
"""
from __future__ import annotations

import dataclasses
from typing import Iterable, Iterator, NamedTuple, Optional

from romp801.forms import Forms, Line as Line


class NoReport(Exception):
    """A line that no report has: its place, from 1, and what it holds."""

    def __init__(self, place: int, line: str) -> None:
        super().__init__(f"line {place} is no line of a report")
        self.place = place
        self.line = line


@dataclasses.dataclass(frozen=True)
class Open(Line):
    """The store is open, also after a crash event."""

    form = "open {number:long}"
    number: int


@dataclasses.dataclass(frozen=True)
class Begin(Line):
    """A program begins."""

    form = "begin {activation} {name:name}"
    activation: int
    name: str


@dataclasses.dataclass(frozen=True)
class Idle(Line):
    """A turn of an activation that isn't active."""

    form = "idle {activation}"
    activation: int


@dataclasses.dataclass(frozen=True)
class Turn(Line):
    """A turn: its rows that took effect, pages that came into a frame, and lines that were asked for."""

    form = "turn {activation} ran {rows} page {pages} lock {locks}"
    activation: int
    rows: int
    pages: int
    locks: int


@dataclasses.dataclass(frozen=True)
class Cycle(Line):
    """A cycle of waits: its members, the first again at the end."""

    form = "cycle {members:members}"
    members: tuple[int, ...]


@dataclasses.dataclass(frozen=True)
class Wait(Line):
    """A turn ended waiting for these, ascending."""

    form = "wait {activation} for {holders:holders}"
    activation: int
    holders: tuple[int, ...]


@dataclasses.dataclass(frozen=True)
class Stored(Line):
    """A checkpoint event that succeeded."""

    form = "stored {number:long}"
    number: int


@dataclasses.dataclass(frozen=True)
class Closed(Line):
    """The desk closed; the report ends."""

    form = "closed"


@dataclasses.dataclass(frozen=True)
class Finish(Line):
    """The last line of a desk that is open."""

    form = "end {number:long}"
    number: int


@dataclasses.dataclass(frozen=True)
class Ended(Line):
    """An activation ended, or was refused: one of the lines below."""

    activation: int

    @property
    def word(self) -> str:
        """The line's first word."""
        return self.form.split(" ")[0]

    @property
    def how(self) -> str:
        """How it ended, in words."""
        return self.word


@dataclasses.dataclass(frozen=True)
class Commit(Ended):
    """It committed: the store's number then, its rows in all, and the bytes that it printed."""

    form = "commit {activation} number {number:long} steps {steps:long} out {out:out}"
    number: int
    steps: int
    out: bytes

    @property
    def how(self) -> str:
        """Its number and what it printed."""
        return f"commit {self.number} out {self.out.hex() or '-'}"


@dataclasses.dataclass(frozen=True)
class Check(Ended):
    """A program check at an address; code 8 is that of a program that gave up ("Program checks")."""

    form = "check {activation} code {code} at {address:address}"
    code: int
    address: int

    @property
    def how(self) -> str:
        """Its code and address."""
        return f"check {self.code} at {self.address:08x}"


@dataclasses.dataclass(frozen=True)
class Journal(Ended):
    """It would have written more lines than a record may have: their number, and the most."""

    form = "journal {activation} lines {lines} limit {limit}"
    lines: int
    limit: int

    @property
    def how(self) -> str:
        """How many lines, and how many a commit may have."""
        return f"journal {self.lines} lines, and a commit has at most {self.limit}"


@dataclasses.dataclass(frozen=True)
class Victim(Ended):
    """It was rolled back, the youngest of a cycle."""

    form = "victim {activation}"


@dataclasses.dataclass(frozen=True)
class Disk(Ended):
    """A page could not be read."""

    form = "disk {activation}"

    @property
    def how(self) -> str:
        """Why."""
        return "disk: a page can't be read"


@dataclasses.dataclass(frozen=True)
class Doubt(Ended):
    """A record was not made durable, and may be: the number that its commit would have."""

    form = "doubt {activation} number {number:long}"
    number: int


@dataclasses.dataclass(frozen=True)
class Lost(Ended):
    """It was active at a crash event."""

    form = "lost {activation}"


@dataclasses.dataclass(frozen=True)
class Left(Ended):
    """It was active at the schedule's end."""

    form = "left {activation}"


@dataclasses.dataclass(frozen=True)
class Refused(Ended):
    """It wasn't begun."""

    name: str


@dataclasses.dataclass(frozen=True)
class Busy(Refused):
    """Sixteen were active already."""

    form = "busy {activation} {name:name}"


@dataclasses.dataclass(frozen=True)
class NoSegment(Refused):
    """A window of the program names a segment that the store lacks."""

    form = "nosegment {activation} {name:name} {segment}"
    segment: int

    @property
    def how(self) -> str:
        """The segment that it wants."""
        return f"nosegment {self.segment}"


ENDS = (Commit, Check, Victim, Journal, Disk, Doubt, Lost, Left, Busy, NoSegment)
LINES = (*ENDS, Open, Begin, Idle, Turn, Cycle, Wait, Closed, Stored, Finish)
_FORMS = Forms(*LINES)
_COMMON: tuple[type[Line], ...] = (Begin, Turn, Wait, Idle)
_OTHERS = frozenset(it.form.split(" ")[0].encode() for it in _COMMON)


def line_of(text: str) -> Line:
    """The line of a text without its line feed; raises ValueError where no report has it."""
    return _FORMS.read(text)


def end_of(text: bytes) -> Optional[Ended]:
    """The end that a line of the program's output tells, or None. Most lines tell of none, and aren't looked at."""
    if text.split(b" ", 1)[0] in _OTHERS:
        return None
    found = line_of(text.decode("latin-1").rstrip("\n"))
    return found if isinstance(found, Ended) else None


def read(text: str) -> Iterator[Line]:
    """The lines of a text; raises NoReport at the first that no report has. The last one needs its line feed."""
    lines = text.split("\n")
    for place, line in enumerate(lines[:-1], 1):
        try:
            yield line_of(line)
        except ValueError as error:
            raise NoReport(place, line) from error
    if lines[-1]:
        raise NoReport(len(lines), lines[-1])


def written(lines: Iterable[Line]) -> str:
    """The text of these lines."""
    return "".join(f"{line}\n" for line in lines)


class Report(NamedTuple):
    """What a report tells: its lines, of each activation its program's name and how it ended, and the store's number
    at its end, or None where it was cut off or the desk closed. `piece` is what comes after the last line feed, as a
    kill leaves it."""

    lines: list[Line]
    names: dict[int, str]
    ends: dict[int, Ended]
    number: Optional[int]
    piece: str

    @classmethod
    def read(cls, data: bytes) -> Report:
        """The report of these bytes, whole or cut off; raises NoReport where they are none."""
        whole, feed, piece = data.decode("latin-1").rpartition("\n")
        lines = list(read(whole + feed))
        names = {it.activation: it.name for it in lines if isinstance(it, (Begin, Refused))}
        ends = {it.activation: it for it in lines if isinstance(it, Ended)}
        number = lines[-1].number if lines and isinstance(lines[-1], Finish) else None
        return cls(lines, names, ends, number, piece)

    def commits(self) -> list[Commit]:
        """Those that committed, in the order of their numbers."""
        return [it for it in self.lines if isinstance(it, Commit)]
