"""An engine in memory, with the calls of the one that is asked over a network, and what may happen to a call."""
from __future__ import annotations

import base64
import threading
from typing import Any, Callable, Dict, Iterable, List, Optional, Tuple

from romp801.cluster.engine import Engine, Item, Part, Unknown


class Lost(Exception):
    """A call of which no answer comes: `made` says whether it was made."""

    def __init__(self, made: bool) -> None:
        super().__init__()
        self.made = made


class Memory(Engine):
    """Keys with their revisions. `before` is called in front of each transaction that is made by `transaction`."""

    def __init__(self) -> None:
        super().__init__("http://127.0.0.1:1")
        self.items: Dict[bytes, Item] = {}
        self.revision = 1
        self.room = threading.RLock()
        self.before: Callable[[List[Part], List[Part]], None] = lambda compares, deeds: None

    def _set(self, key: bytes, value: bytes, lease: int) -> None:
        """Puts a key, at the revision at hand."""
        found = self.items.get(key)
        created = found.created if found else self.revision
        self.items[key] = Item(key, value, created, self.revision, lease)

    def _holds(self, it: Part) -> bool:
        """Whether a comparison holds."""
        found = self.items.get(base64.b64decode(it["key"]))
        if it["target"] == "CREATE":
            return (found.created if found else 0) == int(it["create_revision"])
        if it["target"] == "MOD":
            return (found.changed if found else 0) == int(it["mod_revision"])
        return found is not None and found.value == base64.b64decode(it["value"])

    def _do(self, it: Part) -> None:
        """Makes a deed."""
        if "request_put" in it:
            raw = it["request_put"]
            self._set(base64.b64decode(raw["key"]), base64.b64decode(raw["value"]), int(raw["lease"]))
        else:
            raw = it["request_delete_range"]
            self.remove(base64.b64decode(raw["key"]), base64.b64decode(raw["range_end"]))

    def apply(self, compares: Iterable[Part], deeds: Iterable[Part]) -> bool:
        """A transaction as it is made."""
        with self.room:
            if not all(map(self._holds, compares)):
                return False
            self.revision += 1
            for it in deeds:
                self._do(it)
            return True

    def transaction(self, compares: Iterable[Part], deeds: Iterable[Part]) -> bool:
        """A transaction, and what happens to it."""
        some, more = [*compares], [*deeds]
        try:
            self.before(some, more)
        except Lost as lost:
            if lost.made:
                self.apply(some, more)
            raise Unknown("no answer") from lost
        return self.apply(some, more)

    def get(self, key: bytes, seconds: Optional[float] = None) -> Optional[Item]:
        """A key."""
        with self.room:
            return self.items.get(key)

    def range(self, first: bytes, end: bytes, limit: int = 0) -> List[Item]:
        """A range of keys."""
        with self.room:
            found = [self.items[key] for key in sorted(self.items) if first <= key < end]
            return found[:limit] if limit else found

    def put(self, key: bytes, value: bytes) -> None:
        """Puts a key."""
        with self.room:
            self.revision += 1
            self._set(key, value, 0)

    def remove(self, first: bytes, end: bytes) -> None:
        """Removes a range of keys."""
        with self.room:
            for key in [it for it in self.items if first <= it < end]:
                del self.items[key]

    def look(self, compares: Iterable[Part], *keys: bytes) -> Tuple[bool, List[Optional[Item]]]:
        """Whether comparisons hold, and keys."""
        with self.room:
            return all(map(self._holds, compares)), [self.items.get(key) for key in keys]

    def state(self) -> Tuple[Dict[bytes, Item], int]:
        """All that it has, as a backup has it."""
        with self.room:
            return dict(self.items), self.revision

    def put_back(self, state: Tuple[Dict[bytes, Item], int]) -> None:
        """It has what a backup has."""
        with self.room:
            self.items, self.revision = dict(state[0]), state[1]


def of(it: Any) -> Any:
    """Something that is there."""
    assert it is not None
    return it
