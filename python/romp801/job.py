"""Jobs as text and as objects: programs, events, and lists of transactions (docs/FORMATS.md, "Job" and "Assembler").

`Job.read` finds the faults of a job's own lines as the program does. Source lines are kept as they are: what they make,
and what is wrong in them, the program alone says (`list`).
"""
from __future__ import annotations

import re
from typing import Iterable, Iterator, NamedTuple, Union

from romp801 import words
from romp801.errors import WRONG_USE, Failure

MOST_BYTES = 1 << 20
"""The bytes of the longest job."""
MOST_EVENTS = 10000
"""The events of a job, at most; a drain counts as the turns that it stands for."""
MOST_PROGRAMS, MOST_SOURCES, MOST_VALUES = 64, 16, 4
MOST_ROWS = 1000000
"""The rows of a turn, at most."""
SIDE = 16
"""How many may be active at once."""
BLANKS = " \t\r"
TOKEN = re.compile(r"[A-Za-z_.][A-Za-z0-9_]*|[0-9][A-Za-z0-9]*|[,():+-]")
NUMBER = re.compile(r"0x([0-9A-Fa-f]+)|[0-9]+")
DIRECTIVES = {".word": 4, ".half": 2, ".byte": 1, ".window": 0, ".entry": 0, ".export": 0, ".part": 0}
SHORT = frozenset(
    "a abs ae ais balr balrx bbr bbrx bnbr bnbrx c cas cis cl clrbl clrbu dec exts inc jb jnb lcs lhas lhs lis ls n o "
    "onec s sar sari16 sari se "
    "setbl setbu sf sis sl sli16 sli sr sri16 sri stcs sths sts tgte tlt twoc x".split()
)
"""The mnemonics of two bytes; all others have four."""


class NoJob(Failure):
    """A text that is no job: the line of its first fault, from 1, and the fault's kind, as the program tells them."""

    def __init__(self, line: int, kind: int) -> None:
        super().__init__(f"line {line} of the job: kind {kind}, {words.kind(kind)}", WRONG_USE)
        self.line = line
        self.kind = kind


class Program(NamedTuple):
    """A program: its name, and the lines between `program` and `end` as they are, with those that are `.part`."""

    name: str
    body: tuple[str, ...]

    @property
    def sources(self) -> list[list[str]]:
        """Its sources' lines."""
        found: list[list[str]] = [[]]
        for line in self.body:
            if _alone(line) == ".part":
                found.append([])
            else:
                found[-1].append(line)
        return found

    def __str__(self) -> str:
        """Its text, without the last line feed."""
        return "\n".join([f"program {self.name}", *self.body, "end"])


class Begin(NamedTuple):
    """A program begins with zero to four values, 0 to 4,294,967,295, in r2 to r5."""

    name: str
    values: tuple[int, ...] = ()

    def __str__(self) -> str:
        return " ".join(["begin", self.name, *map(str, self.values)])


class Turn(NamedTuple):
    """A turn of at most so many rows."""

    activation: int
    rows: int

    def __str__(self) -> str:
        return f"turn {self.activation} {self.rows}"


class Drain(NamedTuple):
    """So many rounds of a turn of each activation that has begun."""

    rounds: int
    rows: int

    def __str__(self) -> str:
        return f"drain {self.rounds} {self.rows}"


class Checkpoint(NamedTuple):
    """The store is brought home."""

    def __str__(self) -> str:
        return "checkpoint"


class Crash(NamedTuple):
    """The machine stops and starts again."""

    def __str__(self) -> str:
        return "crash"


Event = Union[Begin, Turn, Drain, Checkpoint, Crash]


class Job(NamedTuple):
    """A job: at most so many pages in frames, its programs and its events."""

    frames: int
    programs: tuple[Program, ...]
    events: tuple[Event, ...]

    @classmethod
    def read(cls, text: str) -> Job:
        """The job of a text, read as Latin 1; raises NoJob."""
        return _Reader(text).job()

    @property
    def front(self) -> str:
        """Its text up to the schedule."""
        return "".join(f"{it}\n" for it in [f"frames {self.frames}", *self.programs])

    def __str__(self) -> str:
        """Its text, without comments outside of programs."""
        return joined(self.front, self.events)

    def __bytes__(self) -> bytes:
        """Its text for the program."""
        return str(self).encode("latin-1")


class _Reader:
    """Reads a job's text, line by line."""

    def __init__(self, text: str) -> None:
        self.lines = text.split("\n")
        self.place = 0

    def wrong(self, kind: int) -> NoJob:
        """A fault of the line that was read last."""
        return NoJob(self.place, kind)

    def line(self) -> str:
        """The next line. The last one lacks its line feed, or isn't there."""
        self.place += 1
        if self.place >= len(self.lines):
            raise self.wrong(10)
        return self.lines[self.place - 1]

    def tokens(self) -> list[str]:
        """The tokens of the next line that has some."""
        found: list[str] = []
        while not found:
            found = self.strictly(self.line())
        return found

    def strictly(self, line: str) -> list[str]:
        """The tokens of a line of the job's own, which has no others."""
        line = line.split(";")[0]
        found, at = [], 0
        while at < len(line):
            token = TOKEN.match(line, at)
            if token:
                found.append(token[0])
                at = token.end()
            elif line[at] in BLANKS:
                at += 1
            else:
                raise self.wrong(10)
        if any(len(it) > 31 for it in found if not it[0].isdigit()):
            raise self.wrong(10)
        return found

    def number(self, token: str) -> int:
        """A number of the job's own lines."""
        if not NUMBER.fullmatch(token) or number_of(token) >> 32:
            raise self.wrong(10)
        return number_of(token)

    def numbers(self, tokens: list[str], count: int) -> list[int]:
        """So many numbers, and nothing more."""
        if len(tokens) != count:
            raise self.wrong(10)
        return [self.number(it) for it in tokens]

    def job(self) -> Job:
        """The whole job."""
        first = self.tokens()
        if first[0] != "frames":
            raise self.wrong(10)
        (frames,) = self.numbers(first[1:], 1)
        if not 2 <= frames <= 1024:
            raise self.wrong(11)
        programs = self.programs()
        events = list(_Events(self, {it.name for it in programs}).all())
        self.rest()
        return Job(frames, tuple(programs), tuple(events))

    def programs(self) -> list[Program]:
        """The programs, up to the schedule."""
        found: list[Program] = []
        while True:
            tokens = self.tokens()
            if tokens == ["schedule"]:
                return found
            if len(tokens) != 2 or tokens[0] != "program" or not is_name(tokens[1]):
                raise self.wrong(10)
            if any(it.name == tokens[1] for it in found):
                raise self.wrong(13)
            if len(found) == MOST_PROGRAMS:
                raise self.wrong(11)
            found.append(Program(tokens[1], tuple(self.body())))

    def body(self) -> Iterator[str]:
        """The lines of a program, up to its end."""
        sources = 1
        while True:
            line = self.line()
            alone = _alone(line)
            if alone == "end":
                return
            sources += alone == ".part"
            if sources > MOST_SOURCES:
                raise self.wrong(11)
            yield line

    def rest(self) -> None:
        """After the end there are blank lines and comments, and each has its line feed."""
        while self.place < len(self.lines) - 1:
            if self.strictly(self.line()):
                raise self.wrong(10)
        if self.lines[-1]:
            self.place += 1
            raise self.wrong(10)


class _Events:
    """Reads the events of a job, of programs with these names."""

    def __init__(self, reader: _Reader, names: set[str]) -> None:
        self.reader, self.names = reader, names
        self.begins = self.count = 0

    def all(self) -> Iterator[Event]:
        """Each event, up to the end."""
        while True:
            tokens = self.reader.tokens()
            if tokens == ["end"]:
                return
            event, count = self.event(tokens[0], tokens[1:])
            self.count += count
            if self.count > MOST_EVENTS:
                raise self.reader.wrong(11)
            yield event

    def event(self, word: str, rest: list[str]) -> tuple[Event, int]:
        """An event, and as how many it counts."""
        if word == "begin":
            return self.begin(rest), 1
        if word == "turn":
            return self.turn(*self.reader.numbers(rest, 2)), 1
        if word == "drain":
            event = self.drain(*self.reader.numbers(rest, 2))
            return event, event.rounds * self.begins
        if word in ("checkpoint", "crash") and not rest:
            return Checkpoint() if word == "checkpoint" else Crash(), 1
        raise self.reader.wrong(10)

    def begin(self, rest: list[str]) -> Begin:
        """`begin NAME` and values."""
        if not rest or not is_name(rest[0]) or len(rest) > 1 + MOST_VALUES:
            raise self.reader.wrong(10)
        values = self.reader.numbers(rest[1:], len(rest) - 1)
        if rest[0] not in self.names:
            raise self.reader.wrong(12)
        self.begins += 1
        return Begin(rest[0], tuple(values))

    def turn(self, activation: int, rows: int) -> Turn:
        """`turn ACTIVATION ROWS`."""
        if not 1 <= activation <= self.begins:
            raise self.reader.wrong(14)
        if not 1 <= rows <= MOST_ROWS:
            raise self.reader.wrong(11)
        return Turn(activation, rows)

    def drain(self, rounds: int, rows: int) -> Drain:
        """`drain ROUNDS ROWS`."""
        if not (1 <= rounds <= MOST_EVENTS and 1 <= rows <= MOST_ROWS):
            raise self.reader.wrong(11)
        return Drain(rounds, rows)


def _alone(line: str) -> str:
    """A line without its comment and the blanks around."""
    return line.split(";")[0].strip(BLANKS)


def is_name(token: str) -> bool:
    """Whether a token may be a program's name."""
    return token[0].isalpha() or token[0] == "_"


def joined(front: str, events: Iterable[Union[Event, str]]) -> str:
    """A job's text: its front, and its events, of which some may be text already."""
    return front + "\n".join(["schedule", *map(str, events), "end", ""])


def words_of(line: str) -> list[str]:
    """The words of a line between blanks, without its comment. A letter beyond ASCII is no blank, whatever it is
    elsewhere."""
    return [it for it in re.split(f"[{BLANKS}]+", line.split(";")[0]) if it]


def shown(text: str) -> str:
    """A text that was read as Latin 1, as it is put: in UTF-8 where it is some."""
    return text.encode("latin-1").decode("utf-8", "backslashreplace")


def tokens_of(line: str) -> list[str]:
    """The tokens of a line of a program, without its comment."""
    return TOKEN.findall(line.split(";")[0])


def number_of(token: str) -> int:
    """A number of the assembler."""
    return int(token, 16 if token.startswith("0x") else 10)


def size_of(statement: list[str]) -> int:
    """The bytes that a statement makes, by its tokens without a label."""
    if not statement:
        return 0
    if statement[0] == ".space":
        return number_of(statement[1])
    return DIRECTIVES.get(statement[0], 2 if statement[0] in SHORT else 4)


def front_of(text: str) -> str:
    """A job's lines up to its schedule, each with its line feed."""
    lines = text.split("\n")
    for place, line in enumerate(lines):
        if words_of(line) == ["schedule"]:
            return "".join(f"{it}\n" for it in lines[:place])
    return text if text.endswith("\n") else text + "\n"


def list_of(text: str) -> dict[int, str]:
    """The transactions of a list by their line numbers, from 1, without comments. A line ends with a line feed
    alone."""
    found = {}
    for number, line in enumerate(text.split("\n"), 1):
        parts = words_of(line)
        if parts:
            found[number] = " ".join(parts)
    return found
