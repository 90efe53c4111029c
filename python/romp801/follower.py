"""What a store has, kept up in memory from commit to commit by reading its journal (docs/FORMATS.md, "Records").

It reads beside a program that runs the store: of each commit whose line was put, the record is in the bank. A program
that is far ahead may have made two checkpoints, and the records are gone then; so it may fall behind, and is read anew
when the store can be locked.
"""
from __future__ import annotations

import os
import struct
from typing import BinaryIO, Optional

from romp801 import files
from romp801.errors import named
from romp801.format import OPEN_GATE, Store

HEAD = 11
"""Bytes of a record in front of its lines."""
CHUNK = 1 << 13
"""Bytes of records that are read at once; where one is longer, all of its bank."""


class Follower:
    """A store's content: `number`, and the bytes of each segment."""

    def __init__(self, path: str, seconds: Optional[float] = 10.0) -> None:
        self.path, self.seconds = path, seconds
        self.file: Optional[BinaryIO] = None
        self.read()

    def read(self) -> None:
        """Reads the whole store, under its lock."""
        with files.locked(self.path, self.seconds) as file:
            store = files.sound(files.read_all(file, self.path), self.path)
            # (a file of its own: that of the lock would keep the lock)
            self.close()
            self.file = files.open_store(self.path)
        self.store, self.number = store, store.number
        self.content = {segment: bytearray(data) for segment, data in store.content().items()}
        self.second = store.image[128] == 1
        self.at = self._area() + store.used
        store.image = b""

    def close(self) -> None:
        """Lets go of the file: no more commits are taken."""
        if self.file is not None:
            self.file.close()
            self.file = None

    def _area(self) -> int:
        """Where the records of the current bank begin."""
        return 264 + (8 + self.store.bank) * self.second

    @property
    def segments(self) -> dict[int, int]:
        """The bytes of each segment."""
        return {segment: len(data) for segment, data in self.content.items()}

    def to(self, number: int) -> bool:
        """Takes the commits up to this number; False where the journal doesn't have them any more."""
        if self.number < number and self.file is not None:
            try:
                while self.number < number and self._next(self.file, number):
                    pass
            except OSError as error:
                raise named(error, self.path) from error
        return self.number >= number

    def _next(self, file: BinaryIO, number: int) -> bool:
        """Takes the next records up to a number, where they are in this bank or begin the other one."""
        if self._records(file, number):
            return True
        other = 264 + (8 + self.store.bank) * (not self.second)
        base = os.pread(file.fileno(), 8, other - 8)
        is_current = (os.pread(file.fileno(), 1, 128) == b"\1") != self.second
        if not is_current or int.from_bytes(base, "big") != self.number:
            return False
        self.second = not self.second
        self.at = self._area()
        return self._records(file, number)

    def _records(self, file: BinaryIO, number: int) -> bool:
        """Takes the records at hand that are the next ones, up to that of a number; False where there is none."""
        for size in (CHUNK, self.store.bank):
            data = os.pread(file.fileno(), size, self.at)
            ends = self._whole(data, number)
            if ends:
                break
        # (the bank may have been begun anew while it was read)
        if not ends or os.pread(file.fileno(), HEAD, self.at) != data[:HEAD]:
            return False
        width, at = 4 + self.store.line, 0
        for end in ends:
            for place in range(at + HEAD, end, width):
                self._line(int.from_bytes(data[place : place + 4], "big"), data[place + 4 : place + width])
            at = end
        self.number, self.at = self.number + len(ends), self.at + at
        return True

    def _whole(self, data: bytes, number: int) -> list[int]:
        """Where the records at the front of these bytes end: those that are whole and the next ones, up to that of a
        number."""
        ends: list[int] = []
        at, due = 0, self.number + 1
        while due <= number and len(data) >= at + HEAD and data[at] == OPEN_GATE:
            count, found = struct.unpack_from(">HQ", data, at + 1)
            at += HEAD + count * (4 + self.store.line)
            if found != due or at > len(data):
                break
            ends.append(at)
            due += 1
        return ends

    def _line(self, index: int, data: bytes) -> None:
        """Puts a line, by its number in the store, where it lies."""
        at = index * self.store.line
        for segment, pages in self.store.segments:
            size = pages * self.store.page
            if at < size:
                self.content[segment][at : at + len(data)] = data
                return
            at -= size

    def bytes_at(self, segment: int, offset: int, count: int) -> bytes:
        """Bytes of a segment, which has them."""
        return bytes(self.content[segment][offset : offset + count])
