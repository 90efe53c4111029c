"""Images in the engine: a whole store at one number, with the table of who was answered there, in pieces."""
from __future__ import annotations

import hashlib
import json
import zlib
from typing import NamedTuple

from romp801.cluster import engine as etcd
from romp801.cluster.engine import Engine, EngineFault, Item, Part
from romp801.cluster.keys import Keys
from romp801.cluster.table import Table

PIECE = 524288
"""Bytes of an image in one key."""


class Image(NamedTuple):
    """A store at one number, the history's sum and the table there."""

    number: int
    sum: str
    table: Table
    store: bytes

    def put(self, engine: Engine, keys: Keys, mark: str) -> tuple[bytes, bytes]:
        """Puts its pieces under a mark of who puts them, which nobody had before; answers where they are, and the
        value of `snap` that makes them the image."""
        table = zlib.compress(json.dumps(self.table.raw(), separators=(",", ":")).encode(), 1)
        data = table + zlib.compress(self.store, 1)
        at = f"{self.number:020}-{mark}"
        prefix = keys.images + at.encode()
        for place in range(0, len(data), PIECE):
            engine.put(prefix + b"/%04d" % (place // PIECE), data[place : place + PIECE])
        total = hashlib.sha256(data).hexdigest()
        snap = {
            "number": self.number,
            "sum": self.sum,
            "at": at,
            "table": len(table),
            "sha256": total,
            "bytes": len(data),
        }
        return prefix, json.dumps(snap).encode()

    @classmethod
    def read(cls, engine: Engine, keys: Keys) -> Image:
        """The one of the engine; raises EngineFault."""
        snap = engine.get(keys.snap)
        if snap is None:
            raise EngineFault("the engine has no image of this store")
        told = json.loads(snap.value)
        prefix = keys.images + told["at"].encode() + b"/"
        # (a piece at a time: an answer has its bounds too)
        data = b"".join(
            it.value
            for place in range(0, told["bytes"], PIECE)
            for it in [engine.get(prefix + b"%04d" % (place // PIECE))]
            if it is not None
        )
        if hashlib.sha256(data).hexdigest() != told["sha256"]:
            raise EngineFault(f"the image at {told['number']} was replaced while it was read")
        table = Table.of(json.loads(zlib.decompress(data[: told["table"]])))
        return cls(told["number"], told["sum"], table, zlib.decompress(data[told["table"] :]))


def replaces(keys: Keys, old: Item, prefix: bytes, snap: bytes, until: int) -> tuple[list[Part], list[Part]]:
    """What makes pieces the image in the place of an old one, and removes its pieces and the entries up to a
    number."""
    deeds = [
        etcd.put(keys.snap, snap),
        etcd.remove(keys.images, prefix),
        etcd.remove(prefix + b"0", etcd.end_of(keys.images)),
        etcd.remove(keys.logs, keys.log(until + 1)),
    ]
    return [etcd.is_changed(keys.snap, old.changed)], deeds
