"""The history of a store: entries that go on from each other, each with a ship text and whose requests it has.

The sum behind an entry is of the sum before it and of its text, from the first image on; so it says which history a
number is of.
"""
from __future__ import annotations

import hashlib
import json
import zlib
from typing import Any, Iterator, Mapping, NamedTuple, Tuple

from romp801.cluster.table import Who
from romp801.errors import Failure
from romp801.report import Commit
from romp801.request import Request, request_of

LARGEST = 1400000
"""Bytes of an entry: the engine takes 1.5 MiB in one call."""


class Done(NamedTuple):
    """A request that committed: whose it is, what it asked as a message has it, and its commit line."""

    who: Who
    asked: Mapping[str, Any]
    commit: Commit

    @property
    def request(self) -> Request:
        """What it asked."""
        return request_of(self.asked)


class Entry(NamedTuple):
    """The numbers after `first` up to `last`: the sum behind them, the primary's term, the sum of the programs, who
    asked for what, and the ship text."""

    first: int
    last: int
    sum: str
    term: int
    programs: str
    done: Tuple[Done, ...]
    text: str

    def packed(self) -> bytes:
        """Its bytes in the engine."""
        done = [[it.who, it.asked, it.commit.number, it.commit.steps, it.commit.out.hex()] for it in self.done]
        raw = {**self._asdict(), "done": done}
        return zlib.compress(json.dumps(raw, separators=(",", ":")).encode(), 1)

    @classmethod
    def of(cls, data: bytes) -> Entry:
        """That of its bytes; raises Failure where they are none."""
        try:
            raw: dict[str, Any] = json.loads(zlib.decompress(data))
            raw["done"] = tuple(map(_done, enumerate(raw["done"], 1)))
            return cls(**raw)
        except (ValueError, TypeError, KeyError, zlib.error) as error:
            raise Failure(f"an entry of the history is none: {type(error).__name__} {error}") from error


def _done(it: Tuple[int, Any]) -> Done:
    """One that committed, and its place in the entry."""
    place, (who, asked, number, steps, out) = it
    return Done(Who(*who), asked, Commit(place, number, steps, bytes.fromhex(out)))


def link(before: str, text: str) -> str:
    """The history's sum behind a text."""
    return hashlib.sha256(f"{before}\n{text}".encode()).hexdigest()


def head_of(number: int, total: str) -> bytes:
    """The value of a head."""
    return f"{number} {total}".encode()


def read_head(value: bytes) -> Tuple[int, str]:
    """The number and the sum of a head."""
    number, total = value.decode().split(" ")
    return int(number), total


def merged(texts: list[str]) -> bytes:
    """One ship text of several that go on from each other."""
    parts = [texts[0][: texts[0].index("\n") + 1]]
    parts += [text[text.index("\n") + 1 : text.rindex("end ")] for text in texts]
    parts.append(texts[-1][texts[-1].rindex("end ") :])
    return "".join(parts).encode()


def lines_of(text: str) -> Iterator[Tuple[int, bytes]]:
    """The lines of the store that a ship text writes, in its order."""
    for line in text.split("\n"):
        if line.startswith("line "):
            _, index, data = line.split(" ")
            yield int(index), bytes.fromhex(data)
