"""What a store held behind each commit of a run: the job is run again on a copy of the store from before it.

Each line of a report is one write, and the program stands still in front of a line until the last one is taken. So of
each commit whose line is at hand the journal still has the record.
"""
from __future__ import annotations

import contextlib
import fcntl
import os
import select

from romp801 import files
from romp801.errors import Failure
from romp801.follower import Follower
from romp801.program import Program
from romp801.report import Commit, Open, Report

SET_PIPE_SIZE = 1031
"""F_SETPIPE_SZ, which Python has from 3.10 on."""


class _Noted(Follower):
    """A store's content, with the lines that the last commits changed."""

    def read(self) -> None:
        self.lines: dict[int, bytes] = {}
        super().read()

    def _line(self, index: int, data: bytes) -> None:
        self.lines[index] = data
        super()._line(index, data)

    def changed(self) -> dict[int, bytes]:
        """The lines that changed since the last call."""
        found, self.lines = self.lines, {}
        return found


def changes(romp801: Program, job: bytes, opening: bytes, found: Report) -> dict[int, dict[int, bytes]]:
    """The lines that each commit of a report changed, by the number that the store had behind it: each by its number in
    the store, with all its bytes then. Raises Failure where the job has another report on a store of these bytes."""
    behind: dict[int, dict[int, bytes]] = {}
    with contextlib.ExitStack() as held:
        store, keeps = held.enter_context(files.copy_of(opening))
        kept = _Noted(store)
        held.callback(kept.close)
        # (one place, which one write fills)
        out, into = os.pipe2(os.O_DIRECT)
        try:
            try:
                fcntl.fcntl(into, SET_PIPE_SIZE, 1)
                child = romp801.start("run", store, given=job, keeps=keeps, output=into)
            finally:
                os.close(into)
            with child:
                try:
                    for line in found.lines:
                        select.select([out], [], [])
                        is_kept = not isinstance(line, (Open, Commit)) or kept.to(line.number)
                        if not is_kept or not _is_next(out, f"{line}\n".encode()):
                            raise Failure("the job has another report on this store")
                        if kept.lines:
                            behind[kept.number] = kept.changed()
                finally:
                    child.kill()
        finally:
            os.close(out)
    return behind


def _is_next(out: int, text: bytes) -> bool:
    """Whether this text comes next; it is taken."""
    while text:
        piece = os.read(out, len(text))
        if not piece or not text.startswith(piece):
            return False
        text = text[len(piece) :]
    return True
