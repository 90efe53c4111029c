"""What lies where in the engine.

For each store NAME, below /romp801/:

    s/NAME/primary      the node that serves; it goes with the node's lease
    s/NAME/head         the last number, and the history's sum there
    s/NAME/log/NUMBER   an entry of the history (romp801.cluster.history)
    s/NAME/snap         a whole store at one number, whose pieces are s/NAME/image/.. (romp801.cluster.image)
    config              the cluster's name, its stores, the slots of keys, and the sum of the programs
    programs/SUM        the programs with this sum
"""
from __future__ import annotations

import json
from typing import Any, Mapping, NamedTuple, Optional, Tuple

from romp801.cluster.engine import Engine, Item
from romp801.errors import Failure

ROOT = b"/romp801/"
CONFIG = ROOT + b"config"
STORES = ROOT + b"s/"
PROGRAMS = ROOT + b"programs/"


class Keys:
    """The keys of one store."""

    def __init__(self, name: str) -> None:
        at = STORES + name.encode() + b"/"
        self.primary, self.head, self.snap = at + b"primary", at + b"head", at + b"snap"
        self.logs, self.images = at + b"log/", at + b"image/"

    def log(self, number: int) -> bytes:
        """The entry whose last number this is."""
        return self.logs + b"%020d" % number


def store_of(key: bytes) -> str:
    """The store whose key this is."""
    return key[len(STORES) :].split(b"/")[0].decode()


class Slot(NamedTuple):
    """Where a slot's records are: the store, the place among its places, how often the slot was moved, and, while it
    is moved and its records are frozen, where to."""

    store: str
    place: int
    turn: int
    to: Optional[Tuple[str, int]] = None


class Config(NamedTuple):
    """What holds for all stores, and the revision that changed it last."""

    cluster: str
    stores: Tuple[str, ...]
    programs: str
    slots: Tuple[Slot, ...]
    changed: int

    @classmethod
    def of(cls, item: Item) -> Config:
        """That of its key."""
        raw = json.loads(item.value)
        slots = tuple(Slot(it[0], it[1], it[2], (it[3][0], it[3][1]) if it[3] else None) for it in raw["slots"])
        return cls(raw["cluster"], tuple(raw["stores"]), raw["programs"], slots, item.changed)

    @classmethod
    def read(cls, engine: Engine, seconds: Optional[float] = None) -> Config:
        """That of the engine; raises Failure where there is none."""
        item = engine.get(CONFIG, seconds)
        if item is None:
            raise Failure("the engine has no cluster: tools/cluster make makes one")
        return cls.of(item)

    def raw(self) -> bytes:
        """Its key's value."""
        found: dict[str, Any] = self._asdict()
        del found["changed"]
        return json.dumps(found).encode()

    def has(self, store: str, guard: Mapping[str, Any]) -> bool:
        """Whether a store has the slots that a message names, each with the place and the turn that it knows: `slots`
        are served, and `frozen` and `filled` are those that are moved, at the store that gives and the one that takes.
        """
        if not guard:
            return True
        served = all(self._slot(it) == Slot(store, it[1], it[2]) for it in guard.get("slots", ()))
        frozen = (self._slot(it) for it in guard.get("frozen", ()))
        gives = all(slot is not None and slot.store == store and slot.to is not None for slot in frozen)
        filled = guard.get("filled", ())
        takes = all(
            slot is not None and slot.to == (store, it[1]) and slot.turn == it[2]
            for it, slot in ((it, self._slot(it)) for it in filled)
        )
        return served and gives and takes

    def _slot(self, it: Any) -> Optional[Slot]:
        """A slot that a message names."""
        return self.slots[it[0]] if 0 <= it[0] < len(self.slots) else None
