"""What is asked of a store: programs by name, and transactions that compare and write; and the jobs that run them.

A transaction that was written in Python is a program that looks whether each word that was read is as it was, gives up
where one isn't, and else writes. So it is one more commit of the proved program, and serial with all others
(docs/GUIDE.md, "From Python").
"""
from __future__ import annotations

import collections
import functools
from typing import Any, Callable, Iterable, Iterator, Mapping, NamedTuple, Optional, Sequence, Union

from romp801 import job, program
from romp801.errors import WRONG_USE, Failure
from romp801.files import Wait
from romp801.report import Check, Ended, Left, end_of

IMAGE = 16384
"""The bytes of a program, at most."""
ROWS = 100000
"""Rows of a turn. One that doesn't end in it is begun again alone, with SIDE turns."""
BATCH = 480
"""Requests of a job."""
ROOM = job.MOST_BYTES * 3 // 4
"""Bytes of a job's programs and events."""
GAVE_UP = 8
"""The code of a check of a program that gave up."""
AGAIN = 2
"""After so many jobs in which it didn't end a request is run alone."""


class Word(NamedTuple):
    """A word of a segment at an offset in bytes, a multiple of four: the bits of it that `mask` has are `value`."""

    segment: int
    offset: int
    mask: int
    value: int


class Run(NamedTuple):
    """A program of the job's front, by its name, and its values."""

    name: str
    values: tuple[int, ...] = ()


class Apply(NamedTuple):
    """Words that are to be as they were read, and words to write then."""

    compare: tuple[Word, ...]
    write: tuple[Word, ...]


Request = Union[Run, Apply]


def message_of(it: Request) -> dict[str, Any]:
    """A request as JSON."""
    return {"run": [it.name, *it.values]} if isinstance(it, Run) else it._asdict()


def request_of(message: Mapping[str, Any]) -> Request:
    """The request of a message; raises Failure, ValueError, TypeError or KeyError where it has none."""
    if "run" in message:
        name, *values = message["run"]
        return Run(str(name), tuple(values))
    compare, write = ((Word(*map(_number, it)) for it in message[part]) for part in ("compare", "write"))
    return Apply(tuple(compare), tuple(write))


def _number(value: Any) -> int:
    """A number of a word."""
    if type(value) is not int:
        raise Failure(f"{value!r} is no number", WRONG_USE)
    return value


def words_at(segment: int, offset: int, data: bytes) -> Iterator[Word]:
    """The words that have these bytes of a segment at an offset."""
    first = offset - offset % 4
    whole = bytes(offset - first) + data
    mask = bytes(offset - first) + b"\xff" * len(data)
    for at in range(0, len(whole), 4):
        part, bits = whole[at : at + 4].ljust(4, b"\0"), mask[at : at + 4].ljust(4, b"\0")
        yield Word(segment, first + at, int.from_bytes(bits, "big"), int.from_bytes(part, "big"))


LOOK = """
cal r9, r0, {looks}
look: l r6, 0(r8)
l r7, 0(r6)
l r10, 4(r8)
n r7, r10
l r10, 8(r8)
cl r7, r10
jnb eq, no
ai r8, r8, 12
sis r9, 1
jnb eq, look
"""
PUT = """
cal r9, r0, {puts}
put: l r6, 0(r8)
l r10, 4(r8)
l r11, 8(r8)
onec r12, r10
jb eq, whole
l r7, 0(r6)
n r7, r12
o r11, r7
whole: st r11, 0(r6)
ai r8, r8, 12
sis r9, 1
jnb eq, put
"""


class _Code(NamedTuple):
    """The rows of a transaction in front of its words, and their bytes."""

    text: str
    size: int


@functools.lru_cache(maxsize=None)
def _code(looks: bool, puts: bool) -> _Code:
    """The rows of one that compares, or writes; {looks} and {puts} stand for how many words."""
    text = "cal r8, r0, data\n" + (LOOK if looks else "") + (PUT if puts else "") + "svc 0\nno: svc 2"
    rows = [line.strip() for line in text.split("\n") if line.strip()]
    size = sum(job.size_of(_statement(row.format(looks=0, puts=0))) for row in rows)
    # (words are loaded from addresses that are a multiple of four)
    rows += [".half 0"] * (size % 4 // 2) + ["data: .space 0"]
    return _Code("\n".join(rows), size + size % 4)


def written_out(name: str, it: Apply) -> job.Program:
    """The program of a transaction; raises Failure where it has too many words, or segments."""
    register = _registers(it)
    writes = {word.segment for word in it.write}
    code = _code(bool(it.compare), bool(it.write))
    data = [
        f".word {number}"
        for word in (*it.compare, *it.write)
        for number in ((register[word.segment] << 28) + word.offset, word.mask, word.value)
    ]
    windows = [f".window {place}, {it}, {'rw' if it in writes else 'r'}" for it, place in register.items()]
    rows = code.text.format(looks=len(it.compare), puts=len(it.write)).split("\n")
    return job.Program(name, (*windows, *rows, *data))


def _registers(it: Apply) -> dict[int, int]:
    """The register of each segment of a transaction; raises Failure where it has too many words, or segments."""
    segments = sorted({word.segment for word in (*it.compare, *it.write)})
    if len(segments) > 15:
        raise Failure(f"a transaction has at most fifteen segments, and this one {len(segments)}", WRONG_USE)
    code = _code(bool(it.compare), bool(it.write))
    if code.size + 12 * (len(it.compare) + len(it.write)) > IMAGE:
        most = (IMAGE - 100) // 12
        raise Failure(f"a transaction touches at most some {most} words, which it reads or writes", WRONG_USE)
    return {segment: place for place, segment in enumerate(segments, 1)}


def _statement(row: str) -> list[str]:
    """The tokens of a row without its label."""
    tokens = job.tokens_of(row)
    return tokens[2:] if tokens[1:2] == [":"] else tokens


class Front:
    """The programs that may be run by name: those of a job's text, or none."""

    def __init__(self, text: Optional[str] = None) -> None:
        if text is None:
            self.text, self.names, self.programs = "frames 64\n", frozenset[str](), 0
            return
        front = job.front_of(text)
        found = job.Job.read(job.joined(front, ()))
        self.text, self.programs = front, len(found.programs)
        self.names = frozenset(it.name for it in found.programs)

    def check(self, it: Request, segments: Mapping[int, int]) -> None:
        """Raises Failure where a request can't be run on a store with these bytes of each segment."""
        if isinstance(it, Run):
            self._check_run(it)
            return
        for word in (*it.compare, *it.write):
            _check_word(word, segments)
        _registers(it)

    def _check_run(self, it: Run) -> None:
        """A program's name and its values."""
        if it.name not in self.names:
            raise Failure(
                f"there is no program {it.name}: there are {', '.join(sorted(self.names)) or 'none'}", WRONG_USE
            )
        if len(it.values) > job.MOST_VALUES:
            raise Failure(f"{it.name} has {len(it.values)} values, and a program takes at most four", WRONG_USE)
        for value in it.values:
            if type(value) is not int or not 0 <= value < 1 << 32:
                raise Failure(f"{it.name}: {value!r} is no value from 0 to 4,294,967,295", WRONG_USE)

    def batch(self, requests: Iterable[Request]) -> int:
        """How many of these, from the first on, one job has room for: at least one."""
        count, programs, size = 0, self.programs, len(self.text)
        for it in requests:
            size += 100
            if isinstance(it, Apply):
                programs += 1
                size += 400 + 45 * (len(it.compare) + len(it.write))
            if count and (count == BATCH or programs > job.MOST_PROGRAMS or size > ROOM):
                break
            count += 1
        return count

    def job(self, requests: list[Request], rounds: int = 1, first: Iterable[job.Event] = ()) -> bytes:
        """The job of these: sixteen side by side, with so many rounds of turns. One that ends in its first turn keeps
        nobody waiting. `first` are events in front of them."""
        texts, names = [self.text], []
        for place, it in enumerate(requests):
            if isinstance(it, Apply):
                names.append(self._free(f"t{place}"))
                texts.append(f"{written_out(names[-1], it)}\n")
            else:
                names.append(it.name)
        events: list[Union[job.Event, str]] = [*first]
        for at in range(0, len(requests), job.SIDE):
            part = range(at, min(at + job.SIDE, len(requests)))
            for place in part:
                it = requests[place]
                events.append(job.Begin(names[place], it.values if isinstance(it, Run) else ()))
            events += [job.Turn(place + 1, ROWS) for _ in range(rounds) for place in part]
        return job.joined("".join(texts), events).encode("latin-1")

    def _free(self, name: str) -> str:
        """A name that no program of the front has."""
        while name in self.names:
            name += "_"
        return name


def _check_word(word: Word, segments: Mapping[int, int]) -> None:
    """A word of the store."""
    room = segments.get(word.segment)
    if room is None:
        raise Failure(f"there is no segment {word.segment}: there are {', '.join(map(str, segments))}", WRONG_USE)
    if not (0 <= word.offset <= room - 4 and word.offset % 4 == 0 and word.mask >> 32 == 0 == word.value >> 32):
        raise Failure(f"segment {word.segment} has no word at {word.offset}: it has {room} bytes", WRONG_USE)


def is_final(end: Ended) -> bool:
    """Whether an end is an answer: another is begun again in a later job."""
    return end.word in ("commit", "check", "journal", "nosegment", "disk")


def is_conflict(end: Ended) -> bool:
    """Whether one that compares, which ended so, found other words than it had read: then nothing was done."""
    return isinstance(end, Check) and end.code == GAVE_UP


class Asked(NamedTuple):
    """A request under its name. `more` is whatever who runs it wants to know besides."""

    name: str
    request: Request
    more: Any = None


Take = Callable[[int, Ended], None]
"""Takes how a request of a job ended: its place among them, from 0."""


class Queue:
    """Requests that wait for a job, in their order, each with how many jobs it was in already."""

    def __init__(self, front: Front) -> None:
        self.front = front
        self.waiting: collections.deque[tuple[Asked, int]] = collections.deque()
        self.running: list[Asked] = []

    def put(self, asked: Asked) -> None:
        """One more waits."""
        self.waiting.append((asked, 0))

    def work(self, run: Callable[[list[Asked], int, Take], None], told: Callable[[Asked, Ended], None]) -> None:
        """Runs one job of those that wait: as many as one has room for, or one alone that didn't end in others, with as
        many turns as one gets. What doesn't end then never does, and is told as left. The others that didn't end wait
        again. Where the job fails all of it, which is `running`, has left the queue."""
        is_alone = bool(self.waiting) and self.waiting[0][1] >= AGAIN
        batch = self._batch(is_alone)
        ended: set[int] = set()

        def take(place: int, end: Ended) -> None:
            """One ended."""
            ended.add(place)
            told(batch[place][0], end)

        self.running = [it for it, _ in batch]
        run(self.running, job.SIDE if is_alone else 1, take)
        left = [(it, times + 1) for place, (it, times) in enumerate(batch) if place not in ended]
        if is_alone and left:
            told(left[0][0], Left(1))
        else:
            self.waiting.extendleft(reversed(left))

    def _batch(self, is_alone: bool) -> list[tuple[Asked, int]]:
        """Takes those of the next job."""
        fresh: list[tuple[Asked, int]] = []
        for it in self.waiting:
            if fresh and (is_alone or it[1] >= AGAIN or len(fresh) == BATCH):
                break
            fresh.append(it)
        count = self.front.batch([it.request for it, _ in fresh])
        return [self.waiting.popleft() for _ in range(count)]


class Told(NamedTuple):
    """What a call of the program came to: its report, its status, and its text on standard error."""

    report: bytes
    status: int
    errors: bytes


def run_job(
    romp801: program.Starter,
    store: str,
    text: bytes,
    take: Callable[[Ended], None],
    seconds: Optional[float],
    keeps: Sequence[int] = (),
) -> Told:
    """Runs a job on a store, and hands each end over as its line is put. Who has the store is waited for, `seconds`
    long. `keeps` are open files that the program has too."""
    wait = Wait(seconds)
    while True:
        try:
            told = _run_once(romp801, store, text, take, keeps)
        except program.Held:
            told = Told(b"", program.BUSY, b"disk\n")
        if told.status != program.BUSY or told.report or not wait.for_store(store):
            return told


def _run_once(
    romp801: program.Starter, store: str, text: bytes, take: Callable[[Ended], None], keeps: Sequence[int]
) -> Told:
    """Runs a job on a store that nobody has."""
    told: list[bytes] = []
    with romp801.start("run", store, given=text, keeps=keeps) as child:
        assert child.stdout is not None and child.stderr is not None
        for line in child.stdout:
            told.append(line)
            end = end_of(line) if line.endswith(b"\n") else None
            if end is not None:
                take(end)
        errors = child.stderr.read()
    return Told(b"".join(told), child.returncode, errors)
