"""What goes from a store to another: outboxes as examples/four.job has them.

There is no transaction over two stores. The giver's transaction takes an amount from its account and, in the same
commit, puts a letter into its store's outbox: a number, the key of the account, the amount. Who drains reads outboxes,
runs `receive` at the store that has the key's slot, which takes a number of a sender in once, and then `sent` at the
giver's. Each step may be done again after a kill, and nothing is done twice, also where slots are moved: a letter goes
where the slot was before the outbox was read, and whoever moves a slot hands on first what lies there for it.
"""
from __future__ import annotations

import collections
from typing import Any, NamedTuple, Optional

from romp801.cluster.client import Cluster
from romp801.errors import Failure
from romp801.report import Check, Commit, Ended
from romp801.request import GAVE_UP, Request, Run

SEGMENT, PLACES, LETTERS, LETTER = 2, 64, 1024, 16
SENT = 256
"""Where the number is that was sent on last; that of the last letter is at 0."""


class Letter(NamedTuple):
    """A letter: the store that it comes from, by its place, its number, the key that it is for, and the amount."""

    sender: int
    number: int
    key: int
    amount: int


class Outbox:
    """The outboxes of all stores. `rows` and `size` say where a key's record lies in segment 1."""

    def __init__(self, cluster: Cluster, rows: int = 1, size: int = 256) -> None:
        self.cluster, self.rows, self.size = cluster, rows, size

    def letters(self, sender: int, store: str) -> list[Letter]:
        """What lies in a store's outbox, in the order of its numbers."""
        count = LETTERS + PLACES * LETTER
        _, (data,) = self.cluster.store(store).look([[SEGMENT, 0, count]])
        put, sent = (int.from_bytes(data[at : at + 4], "big") for at in (0, SENT))
        found = []
        for at in range(LETTERS, count, LETTER):
            number, key, amount = (int.from_bytes(data[at + 4 * it : at + 4 * it + 4], "big") for it in range(3))
            if sent < number <= put:
                found.append(Letter(sender, number, key, amount))
        return sorted(found, key=lambda it: it.number)

    def drain(self, frozen: Optional[int] = None) -> int:
        """Hands on what lies in all outboxes; answers how many letters weren't handed on, since their slots are being
        moved. Who moves a slot names it, and alone hands on what is for it."""
        left = 0
        told = self.cluster.nodes.any({"table": True})
        for sender, store in enumerate(told["stores"]):
            letters = self.letters(sender, store)
            late = self._deliver(letters, told["table"], frozen)
            left += len(late)
            last = min(late) - 1 if late else max((it.number for it in letters), default=0)
            if letters and last >= letters[0].number:
                _sure(self.tried(store, [Run("sent", (last,))], {}))
        return left

    def _deliver(self, letters: list[Letter], slots: list[Any], frozen: Optional[int]) -> list[int]:
        """Hands letters on; answers the numbers of those whose slot isn't where it was."""
        late = []
        parts = collections.defaultdict(list)
        for it in letters:
            parts[it.key % len(slots)].append(it)
        for slot, some in parts.items():
            store, place, turn, to = slots[slot]
            word = "frozen" if slot == frozen and to is not None else "slots"
            requests: list[Request] = [
                Run("receive", (it.number, it.sender, self._offset(it.key // len(slots), place), it.amount))
                for it in some
            ]
            ends = self.tried(store, requests, {word: [[slot, place, turn]]})
            _sure(ends)
            late += [it.number for it, end in zip(some, ends) if end is None]
        return late

    def tried(self, store: str, requests: list[Request], guard: dict[str, Any]) -> list[Optional[Ended]]:
        """Asks a store; None is for each whose slot isn't there."""
        return self.cluster.store(store).tried(requests, None, guard)

    def _offset(self, row: int, place: int) -> int:
        """Where a record lies in segment 1."""
        return (place * self.rows + row) * self.size

    def settle(self, slot: int) -> None:
        """Hands on all that may have been handed on to a frozen slot before."""
        while self.drain(slot):
            pass


def _sure(ends: list[Optional[Ended]]) -> None:
    """Each that was run was done now, or gave up since it was done before."""
    for end in ends:
        if end is not None and not isinstance(end, Commit) and not (isinstance(end, Check) and end.code == GAVE_UP):
            raise Failure(f"the outbox isn't drained: {end.how}")
