"""What a store holds: written into another by commits, and as text that a person can read and compare.

A dump is lines, and has all that a store stands for, with its version, bank and segments:

    romp801 dump 1
    store version 2 bank 65536 number 17
    segment 1 pages 4 fine
    records account segment 1 from 256 size 128 count 32
     balance u4
     owner text 16
    account[3] balance 95 owner "Å"
    bytes 1 00000010 0000001f000000000000000000000000

The records are those that the dump was made with (romp801.records). One without a line is zeros. What they don't cover
is in rows of sixteen bytes, by segment and offset; a row of zeros has no line.
"""
from __future__ import annotations

import json
import re
from typing import Iterable, Iterator, Mapping, NamedTuple

from romp801 import records
from romp801.errors import NO, Failure
from romp801.format import Store
from romp801.records import TEXT, Field, Records, Value
from romp801.request import Apply, words_at

HEAD = "romp801 dump 1"
ROW = 16
ROOM = 5120
"""Bytes of a segment that one commit writes, at most."""
STORE = re.compile(r"store version ([12]) bank ([0-9]{4,6}) number ([0-9]{1,20})")
SEGMENT = re.compile(r"segment ([0-9]{1,4}) pages ([0-9]{1,3})( fine)?")
RECORD = re.compile(r"([A-Za-z_][A-Za-z0-9_]*)\[([0-9]{1,7})\] (.*)")
BYTES = re.compile(r"bytes ([0-9]{1,4}) ([0-9a-f]{8}) ([0-9a-f]{32})")
PART = re.compile(r'"(?:[^"\\]|\\.)*"|[^ "]+')


class Shape(NamedTuple):
    """What a store is made with: its version, the bytes of its bank, and its segments with their pages, and whether
    each is fine."""

    version: int
    bank: int
    segments: list[tuple[int, int, bool]]

    @classmethod
    def of(cls, store: Store) -> Shape:
        """That of a store."""
        fine = [(segment, pages, store.is_fine(place)) for place, (segment, pages) in enumerate(store.segments)]
        return cls(store.version, store.bank, fine)

    def words(self, path: str) -> list[str]:
        """The words of the command line that make such a store."""
        found = ["new" if self.version == 1 else "new2", path, str(self.bank)]
        for segment, pages, fine in self.segments:
            found += [str(segment), f"{pages}{'f' if fine else ''}"]
        return found

    def content(self) -> dict[int, bytearray]:
        """Zeros, for each segment."""
        return {segment: bytearray(2048 * self.version * pages) for segment, pages, _ in self.segments}


class Dump(NamedTuple):
    """What a dump says: the store's shape, its number, and the bytes of each segment."""

    shape: Shape
    number: int
    content: dict[int, bytearray]


def writes(have: Mapping[int, bytes], want: Mapping[int, bytes], most: int) -> list[Apply]:
    """Commits that make what is wanted of what there is, each of at most so many bytes in a row."""
    found = []
    step = min(ROOM, most)
    for segment, data in want.items():
        had = have[segment]
        for at in range(0, len(data), step):
            part = bytes(data[at : at + step])
            if part != had[at : at + len(part)]:
                found.append(Apply((), tuple(words_at(segment, at, part))))
    return found


def _value(value: Value) -> str:
    """A field's value as text."""
    if isinstance(value, str):
        return json.dumps(value, ensure_ascii=not _is_utf8(value))
    return " ".join(map(str, value)) if isinstance(value, list) else str(value)


def _is_utf8(text: str) -> bool:
    """Whether a text has no byte that is no UTF-8."""
    return not any("\ud800" <= it <= "\udfff" for it in text)


def described(it: Records) -> Iterator[str]:
    """The description of records, as it is read."""
    yield f"records {it.name} segment {it.segment} from {it.start} size {it.size} count {it.count}"
    at = 0
    for field in it.fields.values():
        if field.offset > at:
            yield f" skip {field.offset - at}"
        count = "" if field.count is None else f" {field.count}"
        yield f" {field.name} {field.kind}{count}"
        at = field.offset + field.size


def dumped(store: Store, described_by: Iterable[Records] = ()) -> Iterator[str]:
    """The lines of a store's dump, its records by these descriptions; raises Failure where it has no room for them."""
    shape, content = Shape.of(store), store.content()
    yield HEAD
    yield f"store version {store.version} bank {store.bank} number {store.number}"
    for segment, pages, fine in shape.segments:
        yield f"segment {segment} pages {pages}{' fine' if fine else ''}"
    covered = shape.content()
    lines = []
    for it in described_by:
        it.fits({segment: len(data) for segment, data in content.items()})
        yield from described(it)
        for place in it:
            values = it.values(content[it.segment][place.offset : place.offset + it.size])
            put(covered, it, place.offset, values)
            if any(part.strip(b"\0") for part in (it.fields[name].data(value) for name, value in values.items())):
                lines.append(" ".join([str(place), *(f"{name} {_value(value)}" for name, value in values.items())]))
    yield from lines
    for segment, data in content.items():
        for at in range(0, len(data), ROW):
            if data[at : at + ROW] != covered[segment][at : at + ROW]:
                yield f"bytes {segment} {at:08x} {data[at : at + ROW].hex()}"


def put(content: Mapping[int, bytearray], it: Records, offset: int, values: Mapping[str, Value]) -> None:
    """Puts a record's values into the bytes of segments."""
    for name, value in values.items():
        field = it.field(name)
        at = offset + field.offset
        content[it.segment][at : at + field.size] = field.data(value)


class _Reader:
    """Reads a dump."""

    def __init__(self, text: str) -> None:
        self.lines = text.split("\n")
        self.place = 0

    def wrong(self, why: str) -> Failure:
        """What is wrong with the line that was read last."""
        return Failure(f"line {self.place} of the dump: {why}", NO)

    def line(self) -> str:
        """The next line, or nothing at the end."""
        self.place += 1
        return self.lines[self.place - 1] if self.place <= len(self.lines) else ""

    def head(self) -> tuple[Shape, int]:
        """The first lines: the store's shape and number."""
        if self.line() != HEAD:
            raise self.wrong(f"it is `{HEAD}`")
        store = STORE.fullmatch(self.line())
        if not store:
            raise self.wrong("it is `store version VERSION bank BYTES number NUMBER`")
        segments = []
        found = SEGMENT.fullmatch(self.line())
        while found:
            segments.append((int(found[1]), int(found[2]), found[3] is not None))
            found = SEGMENT.fullmatch(self.line())
        if not 1 <= len(segments) <= 15:
            raise self.wrong("it is `segment SEGMENT pages PAGES`, 1 to 15 times")
        self.place -= 1
        return Shape(int(store[1]), int(store[2]), segments), int(store[3])

    def dump(self) -> Dump:
        """All of it."""
        shape, number = self.head()
        content = shape.content()
        sorts = self.records()
        while self.place < len(self.lines):
            line = self.line()
            try:
                if line:
                    self.take(line, sorts, content)
            except Failure as failure:
                raise self.wrong(str(failure)) from failure
        return Dump(shape, number, content)

    def records(self) -> dict[str, Records]:
        """The descriptions of records."""
        text = ""
        line = self.line()
        while line.startswith(("records ", " ")):
            text += f"{line}\n"
            line = self.line()
        self.place -= 1
        return records.read(text)

    @staticmethod
    def take(line: str, sorts: Mapping[str, Records], content: dict[int, bytearray]) -> None:
        """A record, or a row of bytes."""
        room = {segment: len(data) for segment, data in content.items()}
        row, record = BYTES.fullmatch(line), RECORD.fullmatch(line)
        if row:
            segment, at = int(row[1]), int(row[2], 16)
            if at + ROW > room.get(segment, 0):
                raise Failure(f"there are no such bytes of segment {segment}")
            content[segment][at : at + ROW] = bytes.fromhex(row[3])
        elif record and record[1] in sorts:
            it = sorts[record[1]]
            it.fits(room)
            put(content, it, it[int(record[2])].offset, _values(it, record[3]))
        else:
            raise Failure("it is no record that is described above, and no row of bytes")


def _values(it: Records, text: str) -> dict[str, Value]:
    """The values of a record's line."""
    parts = PART.findall(text)
    found: dict[str, Value] = {}
    while parts:
        field = it.field(parts.pop(0))
        count = 1 if field.count is None or field.kind == TEXT else field.count
        if len(parts) < count or field.name in found:
            raise Failure(f"{field.name} lacks its value, or has two")
        try:
            found[field.name] = _read(field, parts[:count])
        except ValueError as error:
            raise Failure(f"{field.name} can't be {' '.join(parts[:count])}") from error
        del parts[:count]
    return found


def _read(field: Field, parts: list[str]) -> Value:
    """A field's value of its text; raises ValueError."""
    if field.kind == TEXT:
        found = json.loads(parts[0])
        if not isinstance(found, str):
            raise ValueError(parts[0])
        return found
    return int(parts[0]) if field.count is None else list(map(int, parts))


def loaded(text: str) -> Dump:
    """What a dump says; raises Failure, with the line, where it is none."""
    return _Reader(text).dump()
