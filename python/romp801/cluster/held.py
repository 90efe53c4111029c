"""Stores in memory: one that the program works on, and the bytes that one stands for."""
from __future__ import annotations

import contextlib
import os
import struct
import subprocess
from typing import Callable, Mapping, Optional

from romp801 import files, program
from romp801.cluster.history import lines_of
from romp801.errors import named
from romp801.format import OPEN_GATE, STORE_BYTES, Store
from romp801.report import Ended, end_of
from romp801.request import Told

TRIES = 20
"""Times that a call whose process is killed is made."""


class Held:
    """A store in memory, without a name: nothing of it is left however the process ends."""

    def __init__(self, romp801: program.Program, image: bytes) -> None:
        self.program = romp801
        try:
            self.file = os.memfd_create("romp801", os.MFD_CLOEXEC)
            files.write_all(self.file, image)
        except OSError as error:
            raise named(error, "a file in memory") from error
        self.path = f"/proc/self/fd/{self.file}"
        self.waiting: Optional[subprocess.Popen[bytes]] = None
        self.going: Optional[subprocess.Popen[bytes]] = None

    def call(self, word: str, *more: str, given: bytes = b"") -> subprocess.CompletedProcess[bytes]:
        """Calls the program on it."""
        return self.program.call(word, self.path, *more, given=given, keeps=[self.file])

    # jobs: the process of the next one is begun while one runs, and is there when its text is

    def _begin(self) -> subprocess.Popen[bytes]:
        """Begins a process for a job."""
        return self.program.begin("run", self.path, keeps=[self.file])

    def prepare(self) -> None:
        """Begins the process of the next job, where it can."""
        if self.waiting is None:
            with contextlib.suppress(OSError):
                self.waiting = self._begin()

    def _taken(self) -> subprocess.Popen[bytes]:
        """The process that was begun and is there still, or another."""
        waiting, self.waiting = self.waiting, None
        if waiting is not None and waiting.poll() is None:
            return waiting
        if waiting is not None:
            _end(waiting)
        return self._begin()

    def job(self, text: bytes, take: Callable[[Ended], None]) -> Told:
        """Runs a job on it, when the process of the one before has ended. Where the report is whole the job's own may
        be about to end."""
        self.settle()
        report: list[bytes] = []
        child = self.going = self._taken()
        assert child.stdin is not None and child.stdout is not None and child.stderr is not None
        with contextlib.suppress(OSError):
            # (one that was killed tells by its status)
            files.write_all(child.stdin.fileno(), text)
        child.stdin.close()
        self.prepare()
        for line in child.stdout:
            report.append(line)
            if line.startswith(b"end ") and line.endswith(b"\n"):
                return Told(b"".join(report), 0, b"")
            end = end_of(line) if line.endswith(b"\n") else None
            if end is not None:
                take(end)
        errors = child.stderr.read()
        self.settle()
        return Told(b"".join(report), child.returncode, errors)

    def settle(self) -> None:
        """Waits for the process of the last job."""
        going, self.going = self.going, None
        if going is not None:
            with going:
                pass

    def shipped(self, number: int) -> str:
        """What `ship` prints of the commits behind a number, also where its process is killed now and then."""
        self.settle()
        for _ in range(TRIES):
            done = self.call("ship", str(number))
            if done.returncode >= 0:
                break
        return program.refused(done, "ship").stdout.decode()

    def image(self) -> bytes:
        """Its bytes."""
        return os.pread(self.file, STORE_BYTES, 0)

    def close(self) -> None:
        """Forgets it."""
        self.settle()
        waiting, self.waiting = self.waiting, None
        if waiting is not None:
            _end(waiting)
        os.close(self.file)


def _end(child: subprocess.Popen[bytes]) -> None:
    """Ends a process that has no job."""
    assert child.stdin is not None
    child.kill()
    with contextlib.suppress(OSError), child:
        pass


class Journal:
    """Where the records of a store lie (docs/FORMATS.md, "Records")."""

    def __init__(self, image: bytes) -> None:
        store = Store(image)
        self.size, self.line, self.lines = 8 + store.bank, store.line, store.lines

    def text(self, file: int, number: int) -> Optional[str]:
        """The ship text of the records behind a checkpoint at a number, or None where another has come since. It is
        what `ship` prints of them."""
        at = 256 + self.size * (os.pread(file, 1, 128) == b"\1")
        data = os.pread(file, self.size, at)
        if int.from_bytes(data[:8], "big") != number:
            return None
        parts, at, width = [f"ship {self.line} {self.lines} {number}\n"], 8, 4 + self.line
        while data[at] == OPEN_GATE:
            count, number = struct.unpack_from(">HQ", data, at + 1)
            parts.append(f"record {number} {count}\n")
            at, before = at + 11 + width * count, at + 11
            for place in range(before, at, width):
                index = int.from_bytes(data[place : place + 4], "big")
                parts.append(f"line {index} {data[place + 4 : place + width].hex()}\n")
        parts.append(f"end {number}\n")
        return "".join(parts)


class Content:
    """What a store stands for, at one number: the bytes of each segment."""

    def __init__(self, image: bytes) -> None:
        store = Store(image)
        self.number, self.line = store.number, store.line
        self.bytes = bytearray().join(store.content().values())
        self.starts, at = {}, 0
        self._segments: dict[int, int] = {}
        for segment, pages in store.segments:
            self.starts[segment], self._segments[segment] = at, pages * store.page
            at += pages * store.page

    @property
    def segments(self) -> Mapping[int, int]:
        """The bytes of each segment."""
        return self._segments

    def bytes_at(self, segment: int, offset: int, count: int) -> bytes:
        """Bytes of a segment, which has them."""
        at = self.starts[segment] + offset
        return bytes(self.bytes[at : at + count])

    def take(self, text: str, number: int) -> None:
        """What a ship text writes, up to this number."""
        for index, data in lines_of(text):
            self.bytes[index * self.line : index * self.line + len(data)] = data
        self.number = number
