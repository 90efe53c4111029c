"""Records: a small description of what lies where in a store, and its bytes as values and back (docs/GUIDE.md, "From
Python").

    records account segment 1 from 0 size 128 count 32
    balance u4
    moves   u2 8
    skip    4
    owner   text 16

Record k begins `from` + k * `size` bytes into the segment. Its fields lie one after another: `u` is a number without a
sign and `s` one with, of 1, 2 or 4 bytes, the highest first; a number behind makes an array of so many. `text` has so
many bytes of UTF-8, with zeros at the end, and `skip` leaves bytes out. A `;` begins a comment.
"""
from __future__ import annotations

import dataclasses
from typing import Iterator, Mapping, Optional, Sequence, Union

from romp801.errors import WRONG_USE, Failure
from romp801.job import NUMBER, is_name, number_of, words_of

WIDTHS = {"u1": 1, "u2": 2, "u4": 4, "s1": 1, "s2": 2, "s4": 4}
TEXT, SKIP = "text", "skip"
HEAD = ("records", "segment", "from", "size", "count")
Value = Union[int, str, "list[int]"]
"""What a field has: a number, a text, or an array of numbers."""


def mistaken(why: str) -> Failure:
    """A description that is none, or a value that a field can't have."""
    return Failure(why, WRONG_USE)


@dataclasses.dataclass(frozen=True)
class Field:
    """A field: its name, its kind, its numbers where it is an array, or the bytes of a text, and its offset in bytes in
    the record."""

    name: str
    kind: str
    count: Optional[int]
    offset: int

    @property
    def width(self) -> int:
        """The bytes of one number of it, or of its text."""
        return WIDTHS.get(self.kind) or self.count or 0

    @property
    def size(self) -> int:
        """All its bytes."""
        return self.width * (self.count or 1) if self.kind in WIDTHS else self.width

    def one(self, data: bytes) -> int:
        """A number of these bytes."""
        return int.from_bytes(data, "big", signed=self.kind[0] == "s")

    def value(self, data: bytes) -> Value:
        """The value of the field's bytes. A byte of a text that is no UTF-8 is kept, as Python keeps those of names."""
        if self.kind == TEXT:
            return data.rstrip(b"\0").decode("utf-8", "surrogateescape")
        if self.count is None:
            return self.one(data)
        return [self.one(data[at : at + self.width]) for at in range(0, self.size, self.width)]

    def number(self, value: object) -> bytes:
        """The bytes of one number; raises Failure where the field can't have it."""
        try:
            if isinstance(value, int):
                return value.to_bytes(self.width, "big", signed=self.kind[0] == "s")
        except OverflowError:
            pass
        raise mistaken(f"{self.name} can't be {value!r}: it is {self.kind}")

    def data(self, value: object) -> bytes:
        """The field's bytes for a value; raises Failure where the field can't have it."""
        if self.kind == TEXT:
            found = value.encode("utf-8", "surrogateescape") if isinstance(value, str) else None
            if found is None or len(found) > self.size or found.endswith(b"\0"):
                raise mistaken(f"{self.name} can't be {value!r}: it is a text of at most {self.size} bytes")
            return found.ljust(self.size, b"\0")
        if self.count is None:
            return self.number(value)
        if not isinstance(value, (list, tuple)) or len(value) != self.count:
            raise mistaken(f"{self.name} can't be {value!r}: it has {self.count} numbers")
        return b"".join(map(self.number, value))


@dataclasses.dataclass(frozen=True)
class Place:
    """One record: which of which."""

    records: Records
    index: int

    @property
    def offset(self) -> int:
        """Where it begins in its segment, in bytes."""
        return self.records.start + self.index * self.records.size

    def __str__(self) -> str:
        return f"{self.records.name}[{self.index}]"


@dataclasses.dataclass(frozen=True)
class Records:
    """Records of one sort. `start` and `size` are bytes."""

    name: str
    segment: int
    start: int
    size: int
    count: int
    fields: Mapping[str, Field]

    @classmethod
    def of(
        cls, name: str, fields: str, *, segment: int, size: int, count: int = 1, start: int = 0
    ) -> Records:
        """Records whose fields are described as in a file, with commas in place of lines; raises Failure where
        something of it can't be."""
        if not is_name(name or "0"):
            raise mistaken(f"{name!r} is no name of records")
        if not (1 <= segment <= 3839 and count >= 1 and size >= 1 and start >= 0):
            raise mistaken(f"{name}: its segment is 1 to 3,839, its size and count at least 1")
        found: dict[str, Field] = {}
        at = 0
        for text in fields.split(","):
            field = field_of(words_of(text), at)
            if field.kind in WIDTHS and (start + at) % field.width + size % field.width * (count > 1):
                raise mistaken(f"{name}.{field.name} isn't at a multiple of {field.width} bytes in each record")
            if field.name in found:
                raise mistaken(f"{name} has two fields {field.name}")
            if field.kind != SKIP:
                found[field.name] = field
            at += field.size
        if at > size:
            raise mistaken(f"the fields of {name} have {at} bytes, and a record {size}")
        return cls(name, segment, start, size, count, found)

    @property
    def end(self) -> int:
        """Where they end in their segment, in bytes."""
        return self.start + self.size * self.count

    def __getitem__(self, index: object) -> Place:
        """The record with this index, from 0."""
        if not isinstance(index, int) or not 0 <= index < self.count:
            raise mistaken(f"there is no {self.name}[{index}]: there are {self.count}")
        return Place(self, index)

    def __iter__(self) -> Iterator[Place]:
        """Each record."""
        return (Place(self, index) for index in range(self.count))

    def field(self, name: str) -> Field:
        """A field, by its name; raises Failure where there is none."""
        if name not in self.fields:
            raise mistaken(f"{self.name} has no field {name}: it has {', '.join(self.fields)}")
        return self.fields[name]

    def fits(self, segments: Mapping[int, int]) -> None:
        """Raises Failure where a store with these bytes of each segment has no room for them."""
        if segments.get(self.segment, 0) < self.end:
            had = f"has {segments[self.segment]} bytes" if self.segment in segments else "isn't there"
            raise mistaken(f"{self.name} ends at {self.end} of segment {self.segment}, which {had}")

    def values(self, data: bytes) -> dict[str, Value]:
        """The values of a record's bytes, by their fields."""
        return {it.name: it.value(data[it.offset : it.offset + it.size]) for it in self.fields.values()}


def field_of(parts: Sequence[str], offset: int) -> Field:
    """A field that is described by these words, at an offset in bytes."""
    line = " ".join(parts)
    if len(parts) == 2 and parts[0] == SKIP and _number(parts[1]):
        return Field("", SKIP, _number(parts[1]), offset)
    if not 2 <= len(parts) <= 3 or not is_name(parts[0]) or parts[1] not in (*WIDTHS, TEXT):
        raise mistaken(f"{line!r} is no field: it is NAME KIND or NAME KIND COUNT, KIND {', '.join(WIDTHS)} or text")
    count = _number(parts[2]) if len(parts) == 3 else None
    if count == 0 or count is None and parts[1] == TEXT:
        raise mistaken(f"{line!r} is no field: its count is at least 1")
    return Field(parts[0], parts[1], count, offset)


def _number(text: str) -> int:
    """A number of a description, 0 to 4,194,304; 0 where it is none."""
    return number_of(text) if NUMBER.fullmatch(text) and number_of(text) <= 1 << 22 else 0


def read(text: str) -> dict[str, Records]:
    """The records of a description, by their names; raises Failure, with the line, where it is none."""
    found: dict[str, Records] = {}
    heads: list[tuple[int, list[str], list[str]]] = []
    for line, parts in enumerate(map(words_of, text.split("\n")), 1):
        if parts[:1] == ["records"]:
            heads.append((line, parts, []))
        elif parts and not heads:
            raise mistaken(f"line {line}: in front of fields there is a line `records NAME segment ..`")
        elif parts:
            heads[-1][2].append(" ".join(parts))
    for line, parts, fields in heads:
        if tuple(parts[::2]) != HEAD or len(parts) != 2 * len(HEAD):
            raise mistaken(f"line {line}: it is `records NAME segment SEGMENT from BYTES size BYTES count COUNT`")
        segment, start, size, count = map(_number, parts[3::2])
        if parts[1] in found:
            raise mistaken(f"line {line}: there are records {parts[1]} already")
        try:
            made = Records.of(parts[1], ",".join(fields), segment=segment, start=start, size=size, count=count)
        except Failure as failure:
            raise mistaken(f"the records of line {line}: {failure}") from failure
        found[parts[1]] = made
    return found
