"""A store read from its bytes, by docs/FORMATS.md, "Store": the one reader beside the program itself."""
from __future__ import annotations

import struct
from typing import Any

STORE_BYTES = 8 << 20
"""More bytes than the largest store has."""
OPEN_GATE = 0xA5


class Fault(Exception):
    """Bytes that are no store, or a damaged one: the offset of the first fault, as the program tells it, and why."""

    def __init__(self, offset: int, why: str) -> None:
        super().__init__(why)
        self.offset = offset
        self.why = why


class Store:
    """What an image stands for. Raises Fault where it is no store, or a damaged one.

    `version`, `bank` (bytes of a record area), `segments` (pairs of identifier and pages), `flags`, `line` and `page`
    (bytes), `lines` (of all segments), `length` (bytes of the file), `number` (commits so far), `base` (the number of
    the last checkpoint), `records` and `used` (how many the bank holds, and their bytes).
    """

    def __init__(self, image: bytes) -> None:
        self.image = image
        self._header()
        self._bank()

    def _field(self, at: int, form: str, what: str) -> Any:
        """A number or some bytes of the header; where they aren't whole the fault is at the end."""
        size = struct.calcsize(form)
        if len(self.image) < at + size:
            raise Fault(len(self.image), f"it ends before {what}")
        return struct.unpack_from(form, self.image, at)[0]

    @staticmethod
    def _is(holds: bool, offset: int, why: str) -> None:
        """Raises a fault where something doesn't hold."""
        if not holds:
            raise Fault(offset, why)

    def _header(self) -> None:
        """Reads the header and looks at the length."""
        self._is(self._field(0, "8s", "its name") == b"801STORE", 0, "it doesn't begin as a store does")
        self.version: int = self._field(8, ">H", "the version")
        self._is(self.version in (1, 2), 8, f"version {self.version} is none")
        count: int = self._field(10, ">H", "the number of segments")
        self._is(1 <= count <= 15, 10, f"it can't have {count} segments")
        self.bank: int = self._field(12, ">I", "the bank's bytes")
        self._is(4096 <= self.bank <= 131072, 12, f"a bank can't have {self.bank} bytes")
        pages_of_all = self._directory(count)
        self.flags = 0
        if self.version == 2:
            self.flags = self._field(76, ">H", "the flags")
            self._is(self.flags >> count == 0, 76, "a flag is set of no segment")
        for at in range(76 if self.version == 1 else 78, 128):
            self._is(self._field(at, "B", "the end of the header") == 0, at, "a byte of the header's end isn't zero")
        self.line = 128 * self.version
        self.page = 16 * self.line
        self.lines = 16 * pages_of_all
        self.home = 272 + 2 * self.bank
        self.length = self.home + self.line * self.lines
        self._is(
            len(self.image) == self.length, min(len(self.image), self.length), f"it should have {self.length} bytes"
        )

    def _directory(self, count: int) -> int:
        """Reads the segments; answers how many pages they have."""
        self.segments: list[tuple[int, int]] = []
        before, pages_of_all = 0, 0
        for place in range(16, 16 + 4 * count, 4):
            segment: int = self._field(place, ">H", "a segment's identifier")
            self._is(before < segment <= 3839, place, f"segment {segment} doesn't stand behind {before}")
            pages: int = self._field(place + 2, ">H", "a segment's pages")
            pages_of_all += pages
            self._is(
                1 <= pages <= 128 and pages_of_all <= 1024, place + 2, f"segment {segment} can't have {pages} pages"
            )
            self.segments.append((segment, pages))
            before = segment
        for at in range(16 + 4 * count, 76):
            self._is(
                self._field(at, "B", "the end of the directory") == 0, at, "a byte of an unused entry isn't zero"
            )
        return pages_of_all

    def _bank(self) -> None:
        """Reads the records of the chosen bank, from gate to gate."""
        at = 256 if self.image[128] != 1 else 264 + self.bank
        self.base: int = struct.unpack_from(">Q", self.image, at)[0]
        area = at + 8
        end = area + self.bank
        at = area
        self.number = self.base
        self.records = 0
        self.newest: dict[int, bytes] = {}
        while self.image[at] == OPEN_GATE:
            self._is(at + 11 <= end, at, "a record doesn't fit its bank")
            at = self._record(at, end)
        self.used = at - area

    def _record(self, at: int, end: int) -> int:
        """Reads the record whose gate is here; answers where the next gate is."""
        count, number = struct.unpack_from(">HQ", self.image, at + 1)
        after: int = at + 11 + (4 + self.line) * count
        self._is(after + 1 <= end, at + 1, f"a record of {count} lines doesn't fit its bank")
        wanted = (self.number + 1) % 2**64
        self._is(number == wanted, at + 3, f"a record has number {number}, and {wanted} is due")
        before = -1
        for place in range(at + 11, after, 4 + self.line):
            index: int = struct.unpack_from(">I", self.image, place)[0]
            self._is(
                before < index < self.lines, place, f"a record has line {index} behind {before}, of {self.lines}"
            )
            self.newest[index] = self.image[place + 4 : place + 4 + self.line]
            before = index
        self.number = number
        self.records += 1
        return after

    def most_lines(self) -> int:
        """The most lines of a commit."""
        return (self.bank - 12) // (4 + self.line)

    def is_fine(self, place: int) -> bool:
        """Whether the segment with this place in the directory, from 0, is fine."""
        return bool(self.flags >> place & 1)

    def is_alike(self, other: Store) -> bool:
        """Whether a store can follow another: of one version, with the same segments and flags. `follow` alone looks
        only at the lines."""
        return (self.version, self.segments, self.flags) == (other.version, other.segments, other.flags)

    def content(self) -> dict[int, bytes]:
        """The committed bytes of each segment, by its identifier."""
        whole = bytearray(self.image[self.home :])
        for index, line in self.newest.items():
            whole[index * self.line : (index + 1) * self.line] = line
        found, at = {}, 0
        for segment, pages in self.segments:
            found[segment] = bytes(whole[at : at + pages * self.page])
            at += pages * self.page
        return found
