"""Stores from Python: programs run by name, and transactions that read and write records (docs/GUIDE.md, "From
Python").

    store = romp801.connect("bank", programs="examples/accounts.job")     a store's file, or the socket of tools/serve
    with store.transaction() as t:
        t[accounts[3]].balance -= 5
        t[accounts[4]].balance += 5

What a transaction read is compared and what it wrote is written by one program of a job, so it is one commit of the
proved program. Where another came between, `Conflict` is raised at the end of the block and nothing was done;
`store.update(function)` calls the function again until it commits. `store.once(name, function)` does so once for ever
under that name, also over kills; a name is a text of one's own, or one of `store.ticket()`.
"""
from __future__ import annotations

import contextlib
import os
import socket
import stat
import time
from typing import Any, Callable, Iterator, Mapping, Optional, Protocol, TypeVar, Union

from romp801 import files, program
from romp801.answers import Key, key_at, ticket_at
from romp801.cluster.table import AHEAD, Late, Old, Who
from romp801.errors import WRONG_USE, Failure
from romp801.ledger import Ledger, asked_as
from romp801.records import TEXT, Field, Place, Records, Value, mistaken
from romp801.report import Commit, Ended, Journal, line_of
from romp801.request import (
    Apply,
    Asked,
    Front,
    Queue,
    Request,
    Run,
    Take,
    Word,
    is_conflict,
    is_final,
    message_of,
    run_job,
    words_at,
)
from romp801.wire import Wire

ATTEMPTS = 1000
BLOCK = 256
"""Bytes that are read of a served store at once: a line of it, or two."""
LATE = "too much was done since this was asked: it isn't known whether it was done"
READ = 65536
"""Bytes that a transaction over a served store may read, at most."""
Found = TypeVar("Found")


class Conflict(Failure):
    """What a transaction read another has changed since: nothing was done."""


class TooLate(Failure):
    """So much was done since a request was asked that it isn't known any more whether it was done."""


class Source(Protocol):
    """Where a transaction reads: the committed bytes of one moment, and the bytes of each segment."""

    @property
    def segments(self) -> Mapping[int, int]:
        """The bytes of each segment."""

    def bytes_at(self, segment: int, offset: int, count: int) -> bytes:
        """Bytes of a segment, which has them."""


class Snapshot:
    """The bytes of a store at one number."""

    def __init__(self, content: Mapping[int, bytes]) -> None:
        self.content = content

    @property
    def segments(self) -> Mapping[int, int]:
        """The bytes of each segment."""
        return {segment: len(data) for segment, data in self.content.items()}

    def bytes_at(self, segment: int, offset: int, count: int) -> bytes:
        """Bytes of a segment, which has them."""
        return self.content[segment][offset : offset + count]


class Transaction:
    """What is read and written. `t[accounts[3]]` is a record, and `t.read` and `t.write` are for bytes."""

    def __init__(self, source: Source) -> None:
        self._source = source
        self._read: dict[tuple[int, int], Word] = {}
        self._written: dict[tuple[int, int], Word] = {}

    def __getitem__(self, place: Union[Place, Records]) -> Row:
        """A record, by its place; Records of which there is one stand for that."""
        if isinstance(place, Records):
            if place.count != 1:
                raise mistaken(f"there are {place.count} of {place.name}: name one, as {place.name}[0]")
            place = place[0]
        place.records.fits(self._source.segments)
        return Row(self, place)

    def fetch(self, *places: Union[Place, Records]) -> None:
        """Reads records ahead, all of one moment: a served store is asked once, and not for each as it is used."""
        for it in places:
            first = it if isinstance(it, Records) else it.records
            first.fits(self._source.segments)
            start, size = (it.start, it.end - it.start) if isinstance(it, Records) else (it.offset, it.records.size)
            self._source.bytes_at(first.segment, start, size)

    def _room(self, segment: int, offset: int, count: int) -> None:
        """Raises Failure where a store has no such bytes."""
        room = self._source.segments.get(segment)
        if room is None or not 0 <= offset <= room - count:
            had = f"it has {room}" if room is not None else "it isn't there"
            raise mistaken(f"segment {segment} has no {count} bytes at {offset}: {had}")

    def read(self, segment: int, offset: int, count: int) -> bytes:
        """Bytes as they are in this transaction. Those that it didn't write itself are compared at the commit."""
        self._room(segment, offset, count)
        data = self._source.bytes_at(segment, offset, count)
        found = bytearray()
        for it in words_at(segment, offset, data):
            key = it.segment, it.offset
            mine = self._written.get(key)
            theirs = it.mask & ~mine.mask if mine else it.mask
            if theirs:
                self._read[key] = _joined(self._read.get(key), it._replace(mask=theirs, value=it.value & theirs))
            value = it.value if mine is None else it.value & ~mine.mask | mine.value
            found += value.to_bytes(4, "big")
        return bytes(found[offset % 4 : offset % 4 + count])

    def write(self, segment: int, offset: int, data: bytes) -> None:
        """Bytes that are to be written."""
        self._room(segment, offset, len(data))
        for it in words_at(segment, offset, data):
            key = it.segment, it.offset
            self._written[key] = _joined(self._written.get(key), it)

    def request(self) -> Apply:
        """What the store is asked for."""
        parts = (self._read, self._written)
        compare, write = (tuple(it for _, it in sorted(part.items())) for part in parts)
        return Apply(compare, write)


def _joined(one: Optional[Word], other: Word) -> Word:
    """A word of which both are told; the other is the newer one."""
    if one is None:
        return other
    return other._replace(mask=one.mask | other.mask, value=one.value & ~other.mask | other.value)


class Row:
    """A record in a transaction: its fields are attributes."""

    __slots__ = ("_t", "_place")
    _t: Transaction
    _place: Place

    def __init__(self, t: Transaction, place: Place) -> None:
        object.__setattr__(self, "_t", t)
        object.__setattr__(self, "_place", place)

    def _field(self, name: str) -> tuple[Field, int]:
        """A field and where it lies in its segment."""
        field = self._place.records.field(name)
        return field, self._place.offset + field.offset

    def __getattr__(self, name: str) -> Any:
        """A field's value: a number, a text, or an array whose numbers can be read and written."""
        field, at = self._field(name)
        if field.count is not None and field.kind != TEXT:
            return Array(self._t, self._place.records.segment, at, field)
        return field.value(self._t.read(self._place.records.segment, at, field.size))

    def __setattr__(self, name: str, value: object) -> None:
        """A field is to have this value; an array takes a list."""
        field, at = self._field(name)
        whole = [*value] if isinstance(value, Array) else value
        self._t.write(self._place.records.segment, at, field.data(whole))


class Array:
    """An array of numbers of a record in a transaction."""

    def __init__(self, t: Transaction, segment: int, at: int, field: Field) -> None:
        self._t, self._segment, self._at, self._field = t, segment, at, field

    def __len__(self) -> int:
        return self._field.count or 0

    def _offset(self, index: int) -> int:
        """Where a number lies in its segment."""
        if not 0 <= index < len(self):
            raise mistaken(f"there is no {self._field.name}[{index}]: there are {len(self)}")
        return self._at + index * self._field.width

    def __getitem__(self, index: int) -> int:
        """A number."""
        return self._field.one(self._t.read(self._segment, self._offset(index), self._field.width))

    def __iter__(self) -> Iterator[int]:
        return (self[index] for index in range(len(self)))

    def __setitem__(self, index: int, value: int) -> None:
        self._t.write(self._segment, self._offset(index), self._field.number(value))


class Store:
    """What a store in a file and a served one have in common."""

    def ask(self, requests: list[Request], name: Optional[str] = None) -> list[Ended]:
        """Runs requests to their ends. Under a name each is answered once for ever."""
        raise NotImplementedError

    def source(self) -> Source:
        """Where a transaction that begins now reads."""
        raise NotImplementedError

    def answered(self, name: str) -> Optional[Ended]:
        """How a request under this name ended, or None."""
        raise NotImplementedError

    def number(self) -> int:
        """The store's number: how many commits it has had."""
        raise NotImplementedError

    def ticket(self) -> str:
        """A name under which something is done once, to be kept before it is asked for: whoever has it may ask
        again."""
        raise NotImplementedError

    def close(self) -> None:
        """Lets go of what is held."""

    def __enter__(self: Found) -> Found:
        return self

    def __exit__(self, *_: object) -> None:
        self.close()

    def run(self, *begins: Any, name: Optional[str] = None) -> list[Ended]:
        """Runs programs of the front, each a tuple of its name and its values, to their ends. Under a name, such as
        that of an order, they are run once however often this is called."""
        requests = [Run(str(it[0]), tuple(it[1:])) for it in begins]
        return self.ask([*requests], name)

    @contextlib.contextmanager
    def transaction(self) -> Iterator[Transaction]:
        """Reads and writes that are committed at the end of the block. Raises Conflict, and nothing was done, where
        another changed what was read; where the block raises an error nothing is done either."""
        t = Transaction(self.source())
        yield t
        if t.request().write:
            _committed(self.ask([t.request()])[0], t)

    def update(self, function: Callable[[Transaction], Found], attempts: int = ATTEMPTS) -> Found:
        """Calls a function with a transaction until it commits; answers what the function did."""
        for left in range(attempts, 0, -1):
            try:
                with self.transaction() as t:
                    found = function(t)
                return found
            except Conflict:
                if left == 1:
                    raise
        raise AssertionError("no attempt")

    def once(self, name: str, function: Callable[[Transaction], object], attempts: int = ATTEMPTS) -> Commit:
        """Does what a function does to the store once, under a name, however often this is called and whatever is
        killed: where it was done the function isn't called, and its commit is answered."""
        for left in range(attempts, 0, -1):
            done = self.answered(f"{name}.0")
            if done is not None:
                return _committed(done, None)
            try:
                t = Transaction(self.source())
                function(t)
                return _committed(self.ask([t.request()], name)[0], t)
            except Conflict:
                if left == 1:
                    raise
        raise AssertionError("no attempt")

    def values(self, place: Place) -> dict[str, Value]:
        """A record's values as they are committed."""
        source = self.source()
        place.records.fits(source.segments)
        return place.records.values(source.bytes_at(place.records.segment, place.offset, place.records.size))


def _committed(end: Ended, t: Optional[Transaction]) -> Commit:
    """The commit of a transaction; raises Conflict, or Failure where it can't be committed."""
    if isinstance(end, Commit):
        return end
    if is_conflict(end):
        raise Conflict("another changed what this transaction read")
    if isinstance(end, Journal):
        raise Failure(
            f"the transaction writes {end.lines} lines, and a commit of this store has at most {end.limit}: "
            "make it with a larger BANK"
        )
    raise Failure(f"the transaction ended with {end.how}")


class FileStore(Store):
    """A store in a file, which this process runs; others may run it between two calls. `seconds` is how long one that
    has it is waited for."""

    def __init__(
        self,
        path: str,
        programs: Optional[str] = None,
        romp801: Optional[str] = None,
        folder: Optional[str] = None,
        seconds: Optional[float] = 10.0,
    ) -> None:
        self.path, self.seconds = path, seconds
        self.program = program.Program.find(romp801)
        self.front = Front(files.read_bytes(programs).decode("latin-1") if programs else None)
        self.folder = folder or f"{path}.ledger"
        self.ledger: Optional[Ledger] = None
        files.sound_store(path)

    def number(self) -> int:
        """The store's number: how many commits it has had."""
        return self.program.number(self.path, self.seconds)

    def source(self) -> Snapshot:
        """The store as it is."""
        with files.locked(self.path, self.seconds) as file:
            return Snapshot(files.sound(files.read_all(file, self.path), self.path).content())

    def _ledger(self) -> Ledger:
        """The ledger, taken by this process until `close`; what an earlier one left is settled."""
        if self.ledger is None:
            made = Ledger(self.path, self.folder, self.program, self.front)
            # (a copy before each job: others may run the store between two)
            made.seconds, made.copy_after = self.seconds, 0
            made.open()
            self.ledger = made
        return self.ledger

    def answered(self, name: str) -> Optional[Ended]:
        """How a request under this name ended, or None."""
        return self._known(_key_of(name))

    def _known(self, key: Key) -> Optional[Ended]:
        """How a request under a key ended, or None."""
        found = self._ledger().answers.find(key)
        if isinstance(found, (Late, Old)):
            raise TooLate(f"{self.path}: {LATE}")
        return found

    def ticket(self) -> str:
        """A name under which something is done once, to be kept before it is asked for: whoever has it may ask
        again."""
        return ticket_at(self._ledger().answers.count)

    def _run(self, asked: list[Asked], rounds: int, take: Take) -> None:
        """Runs a job of which nothing is kept."""
        text = self.front.job([it.request for it in asked], rounds)

        def hand(end: Ended) -> None:
            """One that ended."""
            if is_final(end):
                take(end.activation - 1, end)

        told = run_job(self.program, self.path, text, hand, self.seconds)
        if told.status:
            raise Failure(f"{self.path}: {program.ended(told.status, told.errors, self.path)}")

    def ask(self, requests: list[Request], name: Optional[str] = None) -> list[Ended]:
        """Runs requests to their ends. Under a name each is answered once for ever."""
        segments = Snapshot(files.sound_store(self.path).content()).segments
        for request in requests:
            self.front.check(request, segments)
        if name is None:
            asked, ends = [Asked(f"{place}", request) for place, request in enumerate(requests)], dict[str, Ended]()
            run = self._run
        else:
            asked = [asked_as(key_at(name, place), request) for place, request in enumerate(requests)]
            ends = {it.name: end for it in asked for end in [self._known(it.more)] if end is not None}
            for it in asked:
                self._ledger().answers.check(it.more)
            run = self._ledger().run
        queue = Queue(self.front)
        for it in asked:
            if it.name not in ends:
                queue.put(it)
        while queue.waiting:
            queue.work(run, lambda one, end: ends.update({one.name: end}))
        return [ends[it.name] for it in asked]

    def close(self) -> None:
        """Lets go of the ledger."""
        if self.ledger is not None:
            self.ledger.close()
            self.ledger = None


class Blocks(Protocol):
    """A store that is asked for blocks."""

    @property
    def segments(self) -> Mapping[int, int]:
        """The bytes of each segment."""

    def read(self, keys: list[tuple[int, int]]) -> tuple[int, dict[tuple[int, int], bytes]]:
        """Blocks of the store, all of one moment, and its number."""


class Moment:
    """Where a transaction over a served store reads: blocks of bytes, all of one moment."""

    def __init__(self, store: Blocks) -> None:
        self.store = store
        self.number: Optional[int] = None
        self.blocks: dict[tuple[int, int], bytes] = {}

    @property
    def segments(self) -> Mapping[int, int]:
        """The bytes of each segment."""
        return self.store.segments

    def bytes_at(self, segment: int, offset: int, count: int) -> bytes:
        """Bytes of a segment, which has them. Raises Conflict where what was read before has changed since."""
        first = offset - offset % BLOCK
        keys = [(segment, at) for at in range(first, offset + count, BLOCK)]
        missing = [it for it in keys if it not in self.blocks]
        if missing:
            self._fetch(missing)
        return b"".join(self.blocks[it] for it in keys)[offset - first : offset - first + count]

    @staticmethod
    def ranges(keys: list[tuple[int, int]], segments: Mapping[int, int]) -> list[list[int]]:
        """The ranges of blocks."""
        return [[segment, at, min(BLOCK, segments[segment] - at)] for segment, at in keys]

    def _fetch(self, keys: list[tuple[int, int]]) -> None:
        """Reads blocks, and those before anew where another moment has come."""
        number, found = self.store.read(keys)
        if self.number is not None and number != self.number:
            number, found = self.store.read([*keys, *self.blocks])
            if any(found[it] != data for it, data in self.blocks.items()):
                raise Conflict("another changed what this transaction read")
        self.number = number
        self.blocks.update(found)


class ServedStore(Store):
    """A store that tools/serve has open. Where the server is killed, or the disk fails for a moment, what was asked is
    asked again under its name; `seconds` without an answer are a Failure."""

    def __init__(self, path: str, seconds: float = 60.0) -> None:
        self.path, self.seconds = path, seconds
        self.wire: Optional[Wire] = None
        self._begin_session()

    def _begin_session(self) -> None:
        """Begins a session: a name that nobody had before."""
        found = self._one({"stat": True})
        self._segments = {int(it): size for it, size in found["segments"].items()}
        self.session, self.asked, self.since = os.urandom(8).hex(), 0, int(found["count"])

    @property
    def segments(self) -> Mapping[int, int]:
        """The bytes of each segment."""
        return self._segments

    def number(self) -> int:
        """The store's number: how many commits it has had."""
        return int(self._one({"stat": True})["number"])

    def source(self) -> Moment:
        """Where a transaction that begins now reads."""
        return Moment(self)

    def read(self, keys: list[tuple[int, int]]) -> tuple[int, dict[tuple[int, int], bytes]]:
        """Blocks of the store, all of one moment, and its number."""
        wanted = Moment.ranges(keys, self.segments)
        if sum(count for _, _, count in wanted) > READ:
            raise mistaken(f"a transaction over a served store reads at most {READ} bytes")
        answer = self._one({"read": wanted})
        return int(answer["number"]), dict(zip(keys, map(bytes.fromhex, answer["bytes"])))

    def answered(self, name: str) -> Optional[Ended]:
        """How a request under this name ended, or None."""
        return end_told(self._one({"answered": _key_of(name)})["end"])

    def ticket(self) -> str:
        """A name under which something is done once, to be kept before it is asked for: whoever has it may ask
        again."""
        return ticket_at(int(self._one({"stat": True})["count"]))

    def ask(self, requests: list[Request], name: Optional[str] = None) -> list[Ended]:
        """Runs requests to their ends. Under a name each is answered once for ever."""
        answers: list[dict[str, Any]] = []
        for at in range(0, len(requests), AHEAD):
            part = [message_of(it) for it in requests[at : at + AHEAD]]
            if name is None:
                answers += self._in_session(part)
            else:
                answers += self._exchange([{"name": key_at(name, at + place), **it} for place, it in enumerate(part)])
        ends = (end_told(self._sure(it)["end"]) for it in answers)
        return [it for it in ends if it is not None]

    def _in_session(self, messages: list[dict[str, Any]]) -> list[dict[str, Any]]:
        """The answers of requests of this session. Where it was forgotten those that weren't done are asked in
        another."""
        answers: list[dict[str, Any]] = [{"late": False}] * len(messages)
        left = [*range(len(messages))]
        try:
            while left:
                found = self._exchange([{"name": key, **messages[it]} for key, it in zip(self._keys(len(left)), left)])
                for place, answer in zip(left, found):
                    answers[place] = answer
                left = [it for it in left if answers[it].get("late") is False]
                self.session = self.session if not left else ""
        except BaseException:
            # (what this session asked may have no answer, so its count can't go on)
            self.session = ""
            raise
        return answers

    def _keys(self, count: int) -> list[Key]:
        """The keys of so many requests of this session."""
        if not self.session:
            self._begin_session()
        first, self.asked = self.asked, self.asked + count
        return [Who(self.since, self.session, first, place) for place in range(first, self.asked)]

    def _one(self, message: dict[str, Any]) -> dict[str, Any]:
        """The answer of a message."""
        return self._sure(self._exchange([message])[0])

    def _sure(self, answer: dict[str, Any]) -> dict[str, Any]:
        """An answer; raises TooLate where it tells none."""
        if "late" in answer:
            raise TooLate(f"{self.path}: {LATE}")
        return answer

    def _exchange(self, messages: list[dict[str, Any]]) -> list[dict[str, Any]]:
        """The answers of messages, in their order. What isn't answered is sent again over a new connection. Of one that
        comes too late `late` says whether it was sent before, and so may have been done."""
        answers: dict[int, dict[str, Any]] = {}
        unsure: set[int] = set()
        until = time.monotonic() + self.seconds
        while len(answers) < len(messages):
            left = [place for place in range(len(messages)) if place not in answers]
            why = self._send({place: messages[place] for place in left}, answers)
            for place in left:
                if "late" in answers.get(place, ()):
                    answers[place] = {"late": place in unsure}
            now, late = time.monotonic(), [place for place in left if place not in answers]
            if len(late) < len(left):
                until = now + self.seconds
            elif now > until:
                raise Failure(f"nobody answers at {self.path}: {why}")
            if late:
                unsure.update(late)
                time.sleep(0.05)
        for place in range(len(messages)):
            if "error" in answers[place]:
                raise Failure(str(answers[place]["error"]), WRONG_USE)
        return [answers[place] for place in range(len(messages))]

    def _send(self, messages: dict[int, dict[str, Any]], answers: dict[int, dict[str, Any]]) -> str:
        """Sends messages and takes their answers; answers why some have none."""
        try:
            if self.wire is None:
                self.wire = Wire(self._link(), self.seconds)
            for tag, answer in self.wire.ask(messages):
                if "again" not in answer:
                    answers[tag] = answer
            return "it can't tell yet"
        except OSError as error:
            self.close()
            return error.strerror or str(error)

    def _link(self) -> socket.socket:
        """A connection; raises OSError."""
        link = socket.socket(socket.AF_UNIX, socket.SOCK_STREAM)
        try:
            link.connect(self.path)
        except OSError:
            link.close()
            raise
        return link

    def close(self) -> None:
        """Ends the connection."""
        if self.wire is not None:
            self.wire.close()
            self.wire = None


def _key_of(name: str) -> Key:
    """The key of a request by the text NAME.PLACE."""
    first, _, place = name.rpartition(".")
    return key_at(first, int(place)) if place.isdigit() else name


def end_told(line: Optional[str]) -> Optional[Ended]:
    """The end that a line tells."""
    found = None if line is None else line_of(line)
    return found if isinstance(found, Ended) else None


def connect(path: str, programs: Optional[str] = None, romp801: Optional[str] = None) -> Store:
    """A store's file, or the socket of a server of one (tools/serve). Of a file `programs` is a job whose programs can
    be run by name, and `romp801` names the program; else it is found as docs/OPERATION.md says. Raises Failure where
    there is no store, or nobody answers."""
    found = files.look(path)
    if found is not None and stat.S_ISSOCK(found.st_mode):
        return ServedStore(path)
    return FileStore(path, programs, romp801)
