"""A file of records that is added to, of which each state that a kill or a full disk leaves says exactly what was said.

It is a text of records, each a line `LENGTH SUM JSON`: how many bytes the JSON has, and a sum over it and the sum of
the record before. So a piece of a record, as a kill or a full disk leaves it at the end, is a piece and never another
record, and it is cut off before the next is put. The first record is written whole and renamed, so a new file takes the
place of an old one at once.

Behind the last record there may be zeros, for records to come: a sync of bytes that the file has already doesn't wait
for what the file system notes of a file that grows.
"""
from __future__ import annotations

import hashlib
import json
import os
import re
from typing import Any

from romp801 import files
from romp801.errors import Failure, named

FRAME = re.compile(rb"([0-9]{1,9}) ([0-9a-f]{32}) ")


def framed(record: dict[str, Any], before: str) -> tuple[bytes, str]:
    """A record as it is put behind one with the sum `before`, and its own sum."""
    text = json.dumps(record, separators=(",", ":")).encode()
    own = hashlib.sha256(before.encode() + text).hexdigest()[:32]
    return b"%d %s %s\n" % (len(text), own.encode(), text), own


class Log:
    """The file. `length` is the bytes of its whole records, `last` the sum of the last one, and `room` the bytes up to
    which it has zeros behind them."""

    what = ""
    """What the file is of: a word that its first record has."""
    ahead = 0
    """Zeros that are put behind a record where there are none left."""

    def __init__(self, path: str) -> None:
        self.path = path
        self.length, self.last, self.room = 0, "", 0

    def apply(self, record: dict[str, Any]) -> None:
        """Does what a record says."""
        raise NotImplementedError

    def begin_log(self, *records: dict[str, Any]) -> None:
        """Puts a file of these records in the place of what stands there. Where Failure is raised either of the two may
        have the name, and the log is to be read again: its length is 0 then."""
        self.length, whole, last = 0, b"", ""
        for record in records:
            text, last = framed(record, last)
            whole += text
        files.write_whole(self.path, whole + bytes(self.ahead))
        for record in records:
            self.apply(record)
        self.length, self.last, self.room = len(whole), last, len(whole) + self.ahead

    def read_log(self) -> bool:
        """Takes the records of the file, or answers False where there is none. Raises Failure where it has no whole
        record, or another sort of file's."""
        self.length, self.last, self.room = 0, "", 0
        try:
            with open(self.path, "rb") as file:
                files.forget(file.fileno())
                data = file.read()
        except FileNotFoundError:
            return False
        except OSError as error:
            raise named(error, self.path) from error
        while self._take(data):
            pass
        if not self.length:
            raise Failure(
                f"{self.path} is no {self.what}'s file, or was spoiled: look at the store, and remove it to begin the "
                f"{self.what} anew"
            )
        self.room = len(data) if self.ahead and not data[self.length :].strip(b"\0") else 0
        return True

    def _take(self, data: bytes) -> bool:
        """Takes the next record, where it is whole."""
        frame = FRAME.match(data, self.length)
        if not frame:
            return False
        text = data[frame.end() : frame.end() + int(frame[1])]
        try:
            record = json.loads(text)
        except ValueError:
            return False
        whole, own = framed(record, self.last)
        if data[self.length : self.length + len(whole)] != whole or not self.length and self.what not in record:
            return False
        self.apply(record)
        self.length, self.last = self.length + len(whole), own
        return True

    def add(self, record: dict[str, Any], *before: dict[str, Any]) -> None:
        """Puts a record behind the others and syncs it, and does what it says; where that fails the file stays as it
        was, and Failure is raised. Those that are put in front of it were done already."""
        whole, last = b"", self.last
        for it in (*before, record):
            text, last = framed(it, last)
            whole += text
        try:
            self._put(whole)
        except OSError as error:
            raise named(error, self.path) from error
        self.apply(record)
        self.length, self.last = self.length + len(whole), last

    def _put(self, whole: bytes) -> None:
        """Writes records behind the others and syncs them."""
        end = self.length + len(whole)
        file = os.open(self.path, os.O_WRONLY | os.O_CLOEXEC)
        try:
            room, self.room = self.room, 0
            if end > room:
                os.ftruncate(file, self.length)
                room = end + self.ahead
                whole += bytes(self.ahead)
            os.lseek(file, self.length, os.SEEK_SET)
            files.write_all(file, whole)
            os.fdatasync(file)
            self.room = room
        except BaseException:
            os.ftruncate(file, self.length)
            raise
        finally:
            os.close(file)
