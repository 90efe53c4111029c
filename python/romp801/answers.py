"""What became of what was asked of a store, so that nothing is done twice: of names for ever, and of sessions as long
as they may ask (romp801.cluster.table, which a cluster has too).

A program that asks under a name of its own, such as that of an order, is answered for ever, so there is a limit to such
names. All else is asked in sessions: a name that nobody had before, together with how many requests had been answered
when it began. A session says with each request from which one on it has no answer, and what came of those before is
forgotten; and so are sessions that were quiet for long. One that may have been forgotten is told so, and never taken
for a new one. A ticket is a session of one call, which is kept by who asks.
"""
from __future__ import annotations

import os
from typing import Any, Mapping, Union

from romp801.cluster.table import AHEAD, ONCE, Known, Late, Table, Who
from romp801.errors import WRONG_USE, Failure
from romp801.report import Commit, Ended, line_of

NAMES = 100000
"""Names that are answered for ever, at most."""
BYTES = 64 << 20
"""Bytes of what came of them, about, at most."""
NAME = 200
"""Characters of a name, at most."""
Key = Union[str, Who]
"""Under what something is asked: a name for ever, or a place in a session."""


def ticket_at(count: int) -> str:
    """A ticket: a name that nobody had before, when so many requests had been answered."""
    return f"{count}.{ONCE}{os.urandom(8).hex()}"


def key_at(name: str, place: int) -> Key:
    """The key of a request that is asked under a name or a ticket: its place among those that are asked together."""
    since, _, session = name.partition(".")
    if not since.isdigit() or not session.startswith(ONCE):
        return f"{name}.{place}"
    if place >= AHEAD:
        raise Failure(f"under a ticket at most {AHEAD} requests are asked together", WRONG_USE)
    return Who(int(since), session, 0, place)


def key_of(raw: Any) -> Key:
    """The key of a message; raises Failure or ValueError where it has none."""
    if isinstance(raw, list):
        return Who.of(raw)
    if not isinstance(raw, str) or not 0 < len(raw) <= NAME:
        raise Failure(f"a name is a text of 1 to {NAME} characters", WRONG_USE)
    return raw


def text_of(key: Key) -> str:
    """A text that no other key has."""
    return f"={key}" if isinstance(key, str) else key.name


class Answers:
    """What came of each. `count` is how many requests have been answered."""

    def __init__(self) -> None:
        self.names: dict[str, Ended] = {}
        self.table = Table()
        self.count = self.bytes = 0

    def find(self, key: Key) -> Known:
        """How a request ended; None where it wasn't done, and Late or Old where that isn't told any more."""
        if isinstance(key, str):
            return self.names.get(key)
        # (a session that begins later than all that was answered is one of a ledger that was removed)
        return Late() if key.since > self.count else self.table.find(key)

    def take(self, key: Key, end: Ended) -> None:
        """A request ended; one that had ended already is as it was. Of a session that was forgotten meanwhile nothing
        is kept, so who asks again is told that."""
        if self.find(key) is not None:
            return
        self.count += 1
        if isinstance(key, str):
            self.names[key] = end
            self.bytes += _size(key, end)
        else:
            self.table.take(key, end, self.count)

    def check(self, key: Key) -> None:
        """Raises Failure where there is no room for one more name."""
        is_full = len(self.names) >= NAMES or self.bytes >= BYTES
        if is_full and isinstance(key, str) and key not in self.names:
            raise Failure(f"{len(self.names)} names are answered for ever, and no more: take tickets", WRONG_USE)

    def raw(self) -> dict[str, Any]:
        """All of it, for a record."""
        names = [[name, str(end)] for name, end in self.names.items()]
        return {"count": self.count, "names": names, **self.table.raw()}

    @classmethod
    def of(cls, raw: Mapping[str, Any]) -> Answers:
        """That of a record."""
        made = cls()
        for name, line in raw["names"]:
            made.take(name, ended(line))
        made.table, made.count = Table.of(raw), raw["count"]
        return made


def _size(name: str, end: Ended) -> int:
    """The bytes of what is kept of a name, about."""
    return 100 + len(name) + (2 * len(end.out) if isinstance(end, Commit) else 0)


def ended(line: str) -> Ended:
    """The end that a line tells."""
    found = line_of(line)
    assert isinstance(found, Ended)
    return found
