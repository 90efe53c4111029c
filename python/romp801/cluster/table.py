"""What became of what clients asked: of each, what its last requests came to, so that none is done twice.

A client's session is a name that nobody had before, together with the store's number when it began. It counts its
requests, and says with each from which one on it has no answer. The table forgets sessions that committed nothing for
long, and then knows from which number on it forgot none (`horizon`): a session that is older than that and isn't there
may have been forgotten, and is told so; one that isn't older surely did nothing. One that was forgotten while a request
of it was run is there with what came of that alone: of others it may have been forgotten.
"""
from __future__ import annotations

import collections
from dataclasses import dataclass
from typing import Any, Iterable, Mapping, NamedTuple, Union

from romp801.report import Commit, Ended, line_of

KEPT = 100000
"""Commits after which a session that did nothing since is forgotten."""
SESSIONS = 20000
"""Sessions that are remembered, at most."""
BYTES = 4 << 20
"""Bytes of all that was printed for them, at most."""
NAME = 100
"""Characters of a session's name, at most."""
ONCE = "once-"
"""What the name of a ticket begins with."""
AHEAD = 4096
"""Requests of a session that have no answer, at most."""


class Who(NamedTuple):
    """Whose request it is: its session, and the store's number when that began; from which request on the session has
    no answer, and which one this is."""

    since: int
    session: str
    first: int
    place: int

    @property
    def name(self) -> str:
        """The request's name."""
        return f"{self.since}.{self.session}.{self.place}"

    @property
    def is_once(self) -> bool:
        """Whether the session is a ticket, whose request is asked again until it commits."""
        return self.session.startswith(ONCE)

    @classmethod
    def of(cls, raw: Any) -> Who:
        """That of a message; raises ValueError."""
        since, session, first, place = raw
        if not all(type(it) is int and it >= 0 for it in (since, first, place)) or not first <= place < first + AHEAD:
            raise ValueError(f"{raw} is nobody's")
        if not isinstance(session, str) or not 0 < len(session) <= NAME:
            raise ValueError(f"a session's name is a text of 1 to {NAME} characters")
        return cls(since, session, first, place)


@dataclass(frozen=True)
class Old:
    """Of a request that was answered: an old copy of it came."""


@dataclass(frozen=True)
class Late:
    """Of a session that may have been forgotten: whether it was done isn't known."""


Known = Union[Ended, Old, Late, None]


class _Session:
    """What is remembered of one. Of one that began before `since` some may be forgotten."""

    __slots__ = ("since", "first", "ends", "last", "size")

    def __init__(self, since: int, first: int, ends: dict[int, Ended], last: int) -> None:
        self.since, self.first, self.ends, self.last = since, first, ends, last
        self.size = 100 + sum(map(_size, ends.values()))

    def take(self, who: Who, end: Ended) -> None:
        """A request ended."""
        if self.first < who.first:
            self.first = who.first
            self.ends = {place: it for place, it in self.ends.items() if place >= who.first}
            self.size = 100 + sum(map(_size, self.ends.values()))
        if who.place not in self.ends:
            self.size += _size(end)
        self.ends[who.place] = end


def _size(end: Ended) -> int:
    """Its bytes, about."""
    return 100 + len(end.out) if isinstance(end, Commit) else 100


class Table:
    """Sessions by their names, the one that was quiet for longest first."""

    def __init__(self, horizon: int = 0) -> None:
        self.horizon = horizon
        self.sessions: collections.OrderedDict[str, _Session] = collections.OrderedDict()
        self.bytes = 0

    def take(self, who: Who, end: Ended, at: int) -> None:
        """A request ended, at this number of the store."""
        held = self.sessions.pop(who.session, None) or _Session(max(who.since, self.horizon), who.first, {}, at)
        before = held.size if held.ends else 0
        held.take(who, end)
        held.last = at
        self.sessions[who.session] = held
        self.bytes += held.size - before
        self._forget(at)

    def _forget(self, at: int) -> None:
        """Forgets the sessions that were quiet for too long, or are too many."""
        while self.sessions:
            name, held = next(iter(self.sessions.items()))
            if held.last > at - KEPT and len(self.sessions) <= SESSIONS and self.bytes <= BYTES:
                return
            if len(self.sessions) == 1:
                return
            del self.sessions[name]
            self.bytes -= held.size
            self.horizon = max(self.horizon, held.last)

    def find(self, who: Who) -> Known:
        """What became of a request; None where it wasn't done."""
        held = self.sessions.get(who.session)
        if held is None:
            return Late() if who.since < self.horizon else None
        found = held.ends.get(who.place)
        if found is not None:
            return found
        if who.place < held.first:
            return Old()
        return Late() if who.since < held.since else None

    def copy(self) -> Table:
        """Another with the same."""
        made = Table(self.horizon)
        for name, it in self.sessions.items():
            made.sessions[name] = _Session(it.since, it.first, dict(it.ends), it.last)
        made.bytes = self.bytes
        return made

    def raw(self) -> dict[str, Any]:
        """All of it, for an image."""
        sessions = [
            [name, it.since, it.first, it.last, [[place, str(end)] for place, end in it.ends.items()]]
            for name, it in self.sessions.items()
        ]
        return {"horizon": self.horizon, "sessions": sessions}

    @classmethod
    def of(cls, raw: Mapping[str, Any]) -> Table:
        """That of an image."""
        made = cls(raw["horizon"])
        sessions: Iterable[Any] = raw["sessions"]
        for name, since, first, last, ends in sessions:
            held = made.sessions[name] = _Session(since, first, {place: _end(line) for place, line in ends}, last)
            made.bytes += held.size
        return made


def _end(line: str) -> Ended:
    """The end that a line tells."""
    found = line_of(line)
    assert isinstance(found, Ended)
    return found


class Seen:
    """What became of requests that didn't commit, while one node is the primary: an old copy of one that was told to
    have given up isn't to be run. `tick` counts them. Each message says at which tick it was sent, and an old copy was
    sent before the tick of its answer; so where a session was forgotten, a message that isn't older than that isn't an
    old copy of what it was told."""

    def __init__(self) -> None:
        self.table, self.tick = Table(), 0

    def take(self, who: Who, end: Ended) -> None:
        """A request ended without a commit."""
        self.tick += 1
        self.table.take(who, end, self.tick)

    def find(self, who: Who) -> Known:
        """What became of a request; None where it has no answer yet."""
        found = self.table.find(who)
        return None if isinstance(found, Late) else found

    def is_stale(self, tick: int) -> bool:
        """Whether a message of this tick may be an old copy of one that was forgotten."""
        return tick < self.table.horizon
