"""A node's copy of a store: it changes by `follow` alone, with texts that are in the engine.

It lies in memory and begins with the engine's image. What the node's file has is never taken for the store: the file
is saved from the copy, whole and by a rename, and beside it stands of which history and number it is. A file that
isn't of the engine's history, as where the engine was put back to a backup, is set aside and not written over.
"""
from __future__ import annotations

import collections
import contextlib
import json
import os
import threading
import time
from typing import Callable, Optional

from romp801 import files, program
from romp801.cluster import engine as etcd
from romp801.cluster.engine import Engine, EngineFault
from romp801.cluster.held import Held
from romp801.cluster.history import Entry, link, merged, read_head
from romp801.cluster.image import Image
from romp801.cluster.keys import Keys
from romp801.cluster.table import Table
from romp801.errors import Failure

MERGED = 700000
"""Bytes of texts that are followed by one call."""
REPLACED = (2, 12, 13)
"""Statuses of `follow` with which a copy can't go on."""
ENTRIES, MANY = 16, 256
"""Entries that are read at once, and small ones: an answer of the engine has bounds."""
SMALL = 4096
"""Bytes of an entry that is small."""
BEHIND = 1000
"""Commits that a copy lacks where it takes a while until it has them."""


class Replica:
    """The copy. `number` and `sum` say how far it is in the history, and `table` who was answered there. `hurry` is set
    where somebody waits for it."""

    def __init__(
        self,
        engine: Engine,
        romp801: program.Program,
        name: str,
        folder: str,
        cluster: str,
        say: Callable[[str], None],
    ) -> None:
        self.engine, self.program, self.name, self.keys = engine, romp801, name, Keys(name)
        self.path, self.cluster, self.say = os.path.join(folder, name), cluster, say
        self.save_after = 5.0
        self.lock, self.hurry = threading.Lock(), threading.Event()
        self.held: Optional[Held] = None
        self.number, self.sum, self.table = 0, "", Table()
        self.imaged, self.grown, self.size = 0, 0, 0
        self.most = ENTRIES
        self.saved, self.saved_at = -1, 0.0
        self.images = 0
        self.noted: Optional[tuple[int, str]] = None
        self.offered: collections.deque[Entry] = collections.deque()
        self._look_at_file()

    # the file

    def _look_at_file(self) -> None:
        """What the file is of, as it is noted beside it."""
        try:
            noted = json.loads(files.read_bytes(f"{self.path}.at"))
            if noted["cluster"] == self.cluster and files.is_file(self.path):
                self.noted = (noted["number"], noted["sum"])
            elif files.is_file(self.path):
                self._set_aside(noted["number"])
        except (Failure, ValueError, KeyError, TypeError):
            if files.is_file(self.path):
                self._set_aside("unknown")

    def _set_aside(self, number: object) -> None:
        """The file is of another history: it gets another name."""
        aside = f"{self.path}.other-{number}-{int(time.time())}"
        os.replace(self.path, aside)
        files.sync_folder(aside)
        self.noted = None
        self.say(f"the file at {number} isn't of the engine's history: it is {aside} now")

    def _compare(self, at: int, total: str) -> None:
        """Looks at the file where the copy comes to its number: it isn't of this history where the sums differ."""
        if self.noted is not None and self.noted[0] == at and self.noted[1] != total:
            self._set_aside(at)

    def save(self, now: bool = False) -> None:
        """Saves the copy into the file, where it has gone on and some seconds are over."""
        if self.held is None or self.number == self.saved:
            return
        if not now and time.monotonic() < self.saved_at + self.save_after:
            return
        with self.lock:
            image, number, total = self.held.image(), self.number, self.sum
        if self.noted is not None and self.noted[0] > number:
            return
        files.write_whole(self.path, image)
        note = {"cluster": self.cluster, "number": number, "sum": total}
        files.write_whole(f"{self.path}.at", json.dumps(note).encode())
        self.noted = (number, total)
        self.saved, self.saved_at = number, time.monotonic()

    # following

    def install(self) -> None:
        """Takes the engine's image."""
        image = Image.read(self.engine, self.keys)
        with self.lock:
            if self.held is not None:
                self.held.close()
            self.held = Held(self.program, image.store)
            self.number, self.sum, self.table = image.number, image.sum, image.table
            self.imaged, self.grown, self.size = image.number, 0, len(image.store)
        self.images += 1
        self._compare(self.number, self.sum)
        self.say(f"took the image at {self.number}")

    def foreign(self, why: str) -> bool:
        """The engine has another history than the copy, as one that was put back to a backup has."""
        self.say(f"the copy at {self.number} isn't of the engine's history, {why}")
        if self.held is not None:
            with contextlib.suppress(Failure):
                self.save(now=True)
            if files.is_file(self.path):
                self._set_aside(self.number)
            with self.lock:
                self.held.close()
                self.held = None
        self.install()
        return True

    def follow(self) -> bool:
        """Follows some of what the engine has behind the copy; answers whether there was any."""
        if self.held is None:
            self.install()
            return True
        entries = self._at_hand() or self._read()
        if not entries:
            return self._at_end()
        if entries[0].first > self.number:
            self.install()
            return True
        return self._take(entries)

    def offer(self, entry: Entry) -> None:
        """An entry that the engine has taken, by who put it: it needn't be read."""
        self.offered.append(entry)

    def _at_hand(self) -> list[Entry]:
        """The entries behind the copy that are at hand."""
        found: list[Entry] = []
        number, size = self.number, 0
        while self.offered and size < MERGED:
            entry = self.offered.popleft()
            if entry.first == number:
                found.append(entry)
                number, size = entry.last, size + len(entry.text)
                self.grown += len(entry.text) // 4
            elif entry.last > number:
                self.offered.clear()
        return found

    def _read(self) -> list[Entry]:
        """Some of the entries that the engine has behind the copy."""
        found: list[Entry] = []
        size, most, self.most = 0, self.most, ENTRIES
        items = self.engine.range(self.keys.log(self.number + 1), etcd.end_of(self.keys.logs), most)
        if len(items) == most and all(len(it.value) < SMALL for it in items):
            self.most = min(MANY, 2 * most)
        for it in items:
            entry = Entry.of(it.value)
            size += len(entry.text)
            if found and size > MERGED:
                break
            found.append(entry)
            self.grown += len(it.value)
        return found

    def _at_end(self) -> bool:
        """There is nothing behind the copy: it must be at the head, unless entries were removed meanwhile."""
        item = self.engine.get(self.keys.head)
        if item is None:
            raise EngineFault(f"the engine has no store {self.name}")
        number, total = read_head(item.value)
        if number < self.number or number == self.number and total != self.sum:
            return self.foreign(f"whose head is {number}")
        if self.noted is not None and self.noted[0] > number:
            self._set_aside(self.noted[0])
        if number > self.number and not self.engine.range(
            self.keys.log(self.number + 1), etcd.end_of(self.keys.logs), 1
        ):
            self.install()
            return True
        return False

    def _take(self, entries: list[Entry]) -> bool:
        """Follows entries, where they go on from the copy."""
        sums, total = [], self.sum
        for entry in entries:
            total = link(total, entry.text)
            if total != entry.sum:
                return self.foreign(f"whose entry {entry.last} has another sum")
            sums.append(total)
        assert self.held is not None
        with self.lock:
            done = self.held.call("follow", given=merged([it.text for it in entries]))
            if done.returncode == 0 and int(done.stdout.split()[-1]) == entries[-1].last:
                for entry in entries:
                    for it in entry.done:
                        self.table.take(it.who, it.commit, it.commit.number)
                self.number, self.sum = entries[-1].last, total
        for entry, total in zip(entries, sums):
            self._compare(entry.last, total)
        if done.returncode in REPLACED:
            self.say(f"the copy is made anew: {program.ended(done.returncode, done.stderr)}")
            self.install()
        elif done.returncode:
            # (what it has of the text is passed over the next time)
            raise EngineFault(f"{self.name}: follow: {program.ended(done.returncode, done.stderr)}")
        return True

    def is_behind(self) -> bool:
        """Whether it takes a while until the copy is at the history's end."""
        item = self.engine.get(self.keys.head)
        return item is not None and read_head(item.value)[0] > self.number + BEHIND

    def snapshot(self) -> Image:
        """The store as it is here, its number, sum and table."""
        with self.lock:
            if self.held is None:
                raise EngineFault(f"{self.name} has no copy yet")
            return Image(self.number, self.sum, self.table.copy(), self.held.image())
