"""A slot of keys is moved to another store while clients work.

Its records are frozen in the table of slots, against which each job of each store is put: from then on nothing that
names the slot is run. What lies in outboxes for it is handed on; its records are copied; and the slot is the other
store's. Each step can be done again, so who moves a slot may be killed, and calls again.
"""
from __future__ import annotations

from typing import Any, Callable, Iterable, Optional

from romp801.cluster.client import Cluster
from romp801.cluster.engine import Engine
from romp801.cluster.keys import Config, Slot
from romp801.cluster.setup import change
from romp801.errors import NO, WRONG_USE, Failure
from romp801.records import Records
from romp801.report import Commit, Ended
from romp801.request import Apply, Request, words_at

STEP = 2048
"""Bytes that one commit copies: any bank has room for them."""


class Move:
    """A slot, to a store. `rows` is how many records of each sort a place has."""

    def __init__(
        self, engine: Engine, cluster: Cluster, slot: int, store: str, records: Iterable[Records], rows: int
    ) -> None:
        self.engine, self.cluster, self.slot, self.store = engine, cluster, slot, store
        self.records, self.rows = [*records], rows

    def work(self, settle: Callable[[int], None] = lambda slot: None) -> str:
        """Moves it; answers where it was and is. `settle` hands on what outboxes have for the slot."""
        config = change(self.engine, self._frozen)
        slot = config.slots[self.slot]
        if slot.to is None:
            return f"slot {self.slot} is in {slot.store} at place {slot.place}"
        settle(self.slot)
        self._copy(slot)
        change(self.engine, self._released)
        return f"slot {self.slot} is in {slot.to[0]} at place {slot.to[1]}; it was in {slot.store}"

    def _frozen(self, config: Config) -> Config:
        """The slot is about to be moved."""
        if not 0 <= self.slot < len(config.slots) or self.store not in config.stores:
            raise Failure(f"there is no slot {self.slot} or no store {self.store}", WRONG_USE)
        slot = config.slots[self.slot]
        if slot.to is not None and slot.to[0] != self.store:
            raise Failure(f"slot {self.slot} is being moved to {slot.to[0]}: go on with that", NO)
        if slot.to is not None or slot.store == self.store:
            return config
        taken = {it.place for it in config.slots if it.store == self.store}
        taken |= {it.to[1] for it in config.slots if it.to is not None and it.to[0] == self.store}
        place = next(it for it in range(len(config.slots) + 1) if it not in taken)
        return self._with(config, slot._replace(to=(self.store, place)))

    def _released(self, config: Config) -> Config:
        """The slot is the other store's."""
        slot = config.slots[self.slot]
        return config if slot.to is None else self._with(config, Slot(slot.to[0], slot.to[1], slot.turn + 1))

    def _with(self, config: Config, slot: Slot) -> Config:
        """With this slot."""
        slots = [*config.slots]
        slots[self.slot] = slot
        return config._replace(slots=tuple(slots))

    def _copy(self, slot: Slot) -> None:
        """Copies the records of a frozen slot, and looks that they are there."""
        assert slot.to is not None
        gives: dict[str, Any] = {"frozen": [[self.slot, slot.place, slot.turn]]}
        takes: dict[str, Any] = {"filled": [[self.slot, slot.to[1], slot.turn]]}
        one, other = self.cluster.store(slot.store), self.cluster.store(slot.to[0])
        for it in self.records:
            size = it.size * self.rows
            first, second = it.start + slot.place * size, it.start + slot.to[1] * size
            if second + size > it.end or second + size > other.segments.get(it.segment, 0):
                raise Failure(f"{slot.to[0]} has no room for {it.name} at place {slot.to[1]}", NO)
            ranges = [(at, min(STEP, size - at)) for at in range(0, size, STEP)]
            _, data = one.look([[it.segment, first + at, count] for at, count in ranges], gives)
            writes: list[Request] = [
                Apply((), tuple(words_at(it.segment, second + at, part))) for (at, _), part in zip(ranges, data)
            ]
            for end in self.put(slot.to[0], writes, takes):
                if not isinstance(end, Commit):
                    why = "its slots were changed" if end is None else end.how
                    raise Failure(f"{slot.to[0]} doesn't take the records of slot {self.slot}: {why}")
            _, found = other.look([[it.segment, second + at, count] for at, count in ranges], takes)
            if found != data:
                raise Failure(f"{slot.to[0]} has other records of slot {self.slot} than {slot.store}")

    def put(self, store: str, writes: list[Request], takes: dict[str, Any]) -> list[Optional[Ended]]:
        """Asks a store for writes."""
        return self.cluster.store(store).tried(writes, None, takes)
