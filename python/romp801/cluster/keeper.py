"""A store at a node: its copy, which follows, and its term while the node is the primary."""
from __future__ import annotations

import contextlib
import hashlib
import json
import random
import threading
import time
from typing import TYPE_CHECKING, Any, Mapping, NamedTuple, Optional

from romp801.cluster import engine as etcd
from romp801.cluster.engine import EngineFault
from romp801.cluster.image import replaces
from romp801.cluster.reader import Reader
from romp801.cluster.replica import Replica
from romp801.cluster.term import Deposed, Elsewhere, Term
from romp801.errors import Failure
from romp801.gather import Gatherer
from romp801.listener import Waiting
from romp801.report import Commit, Ended, Left
from romp801.request import Asked

if TYPE_CHECKING:
    from romp801.cluster.node import Node

PATIENCE = 0.15
"""Seconds that a node waits at most before it takes a store that has no primary: so stores spread."""
YIELDS = 1.0
"""Seconds more that it waits where its copy is behind: another may serve sooner."""
GATHERS = 0.03
"""Seconds that a copy waits for more entries, but where somebody waits for it."""
GROWN = 4 << 20
"""Bytes of entries after which an image is put, or twice the store's."""


class Desk(Gatherer):
    """Gathers what is asked of a term into jobs."""

    def __init__(self, term: Term) -> None:
        super().__init__(term)
        self.term = term

    def told(self, asked: Asked, end: Ended) -> None:
        """A request ended: the term tells it when it is settled, but for one that never ends."""
        if isinstance(end, Left):
            self.term.left(asked, end)

    def untold(self, asked: list[Asked], failure: Failure) -> None:
        """A job failed."""
        self.term.untold(asked, failure)

    def over(self) -> None:
        """The thread ends, and the term with it."""
        self.term.over(self.failed or "the node is no primary any more")


class Serving(NamedTuple):
    """A term, and who waits in it."""

    term: Term
    waiting: Waiting
    reader: Reader

    def moment(self) -> list[int]:
        """Which term it is, and how many were told by it that they have given up."""
        return [self.term.created, self.term.seen.tick]

    def answer(self, end: Ended) -> Mapping[str, Any]:
        """What is told of an end."""
        if isinstance(end, Elsewhere):
            return {"moved": True}
        return {"end": str(end), "at": self.moment()}


class Keeper:
    """The store. `serving` is the term while this node is the primary, and `primary` says who is known to be."""

    def __init__(self, node: Node, name: str) -> None:
        self.node, self.engine, self.name = node, node.engine, name
        self.replica = Replica(
            node.engine, node.program, name, node.options.folder, node.cluster, lambda said: self.say(said)
        )
        self.replica.save_after = node.options.save
        self.keys = self.replica.keys
        self.serving: Optional[Serving] = None
        self.primary: Optional[dict[str, str]] = None
        self.wake, self.wake_follow = threading.Event(), threading.Event()

    def say(self, said: str) -> None:
        """A line on standard error."""
        self.node.say(f"{self.name}: {said}")

    def start(self) -> None:
        """Begins to follow, and to lead where nobody does."""
        for work in (self._follow_loop, self._lead_loop):
            threading.Thread(target=work, daemon=True).start()

    # following

    def _follow_loop(self) -> None:
        """Follows, saves, and puts images."""
        while True:
            try:
                while self.replica.follow():
                    self.replica.save()
                self.replica.save()
                self._image()
            except EngineFault as fault:
                self.node.whisper(f"{self.name}: {fault}")
                time.sleep(0.1)
            except Failure as failure:
                self.say(str(failure))
                time.sleep(0.5)
            except Exception as error:  # (a thread that ends would leave the store behind without a word)
                self.say(f"a mistake: {type(error).__name__}: {error}")
                time.sleep(0.5)
            self.wake_follow.wait(0.5)
            # (a moment later there may be more, for one process; nobody is answered by the copy)
            self.replica.hurry.wait(GATHERS)
            self.replica.hurry.clear()
            self.wake_follow.clear()

    def _image(self) -> None:
        """The primary puts an image where the history has grown, and removes the entries before it."""
        serving, replica = self.serving, self.replica
        if serving is None or replica.number <= replica.imaged:
            return
        due = replica.number >= replica.imaged + self.node.options.image_every
        if not due and replica.grown < max(GROWN, 2 * replica.size):
            return
        old = self.engine.get(self.keys.snap)
        if old is None:
            return
        image = replica.snapshot()
        prefix, snap = image.put(self.engine, self.keys, self.node.token)
        compares, deeds = replaces(self.keys, old, prefix, snap, max(0, image.number - self.node.options.slack))
        created = etcd.is_created(self.keys.primary, serving.term.created)
        if self.engine.transaction([created, *compares], deeds):
            replica.imaged, replica.grown = image.number, 0
            self.say(f"put the image at {image.number}")

    # leading

    def _lead_loop(self) -> None:
        """Leads, whenever nobody does."""
        while True:
            try:
                if self.replica.held is not None:
                    self._try_lead()
            except EngineFault as fault:
                self.node.whisper(f"{self.name}: {fault}")
                time.sleep(0.2)
            except Exception as error:  # (as above)
                self.say(f"a mistake: {type(error).__name__}: {error}")
                time.sleep(0.2)
            self.wake.wait(0.5)
            self.wake.clear()

    def _try_lead(self) -> None:
        """Looks who is the primary, and becomes it where nobody is."""
        item = self.engine.get(self.keys.primary)
        if item is not None and self._was_mine(item.value):
            # (an earlier process of this node has ended, since this one has its folder: its lease needn't run out)
            self.engine.transaction(
                [etcd.is_created(self.keys.primary, item.created)],
                [etcd.remove(self.keys.primary, self.keys.primary + b"\0")],
            )
            item = self.engine.get(self.keys.primary)
        if item is None:
            self.primary = None
            order = hashlib.sha256(f"{self.name} {self.node.options.name}".encode()).digest()[0]
            time.sleep(PATIENCE * (order / 256 + random.random() / 4) + YIELDS * self.replica.is_behind())
            lease = self.node.lease
            if lease is None:
                return
            told = {"name": self.node.options.name, "at": self.node.options.listen, "token": self.node.token}
            with contextlib.suppress(etcd.Unknown):
                self.engine.transaction(
                    [etcd.is_created(self.keys.primary, 0)],
                    [etcd.put(self.keys.primary, json.dumps(told).encode(), lease)],
                )
            item = self.engine.get(self.keys.primary)
            if item is None:
                return
        self.primary = json.loads(item.value)
        if self.primary is not None and self.primary["token"] == self.node.token and self.node.lease == item.lease:
            self._lead(item.created, item.lease)

    def _was_mine(self, value: bytes) -> bool:
        """Whether an earlier process of this node is the primary."""
        held = json.loads(value)
        return bool(held["name"] == self.node.options.name and held["token"] != self.node.token)

    def _lead(self, created: int, lease: int) -> None:
        """Serves, until the engine says that another is the primary."""
        why = "it couldn't begin"
        try:
            why = self._serve(created, lease)
        except Deposed as error:
            why = str(error)
        finally:
            self.say(f"is no primary any more: {why}")
            with contextlib.suppress(EngineFault):
                # (who goes lets the others begin at once)
                self.engine.transaction(
                    [etcd.is_created(self.keys.primary, created)],
                    [etcd.remove(self.keys.primary, self.keys.primary + b"\0")],
                )

    def _serve(self, created: int, lease: int) -> str:
        """One term; answers why it ended."""
        waiting: Waiting
        serving: Serving
        term = Term(
            self.replica,
            self.engine,
            created,
            lambda: self.node.lease == lease,
            lambda asked, end: waiting.told(asked.name, end),
            lambda asked, failure: waiting.untold(asked, failure),
            self.wake_follow.set,
        )
        desk, reader = Desk(term), Reader(term)
        waiting = Waiting(self.node.loop, desk.ask, lambda end: serving.answer(end))
        serving = Serving(term, waiting, reader)
        threads = [desk, reader, threading.Thread(target=term.put_loop, daemon=True)]
        for it in threads:
            it.start()
        self.say(f"is the primary since {created}, at {term.number}")
        self.serving = serving
        while term.why is None and self.node.lease == lease:
            time.sleep(0.02)
        self.serving = None
        term.over("its lease is over")
        # (of what is being put it isn't known what comes of it: who waits for it asks the next primary)
        self.node.loop.call_soon_threadsafe(waiting.close, term.why)
        desk.end()
        for it in threads:
            it.join()
        term.close()
        return term.why or ""

    def status(self) -> dict[str, Any]:
        """How far it is, and what it does."""
        serving = self.serving
        found: dict[str, Any] = {
            "number": self.replica.number,
            "saved": self.replica.saved,
            "images": self.replica.images,
        }
        found["primary"] = self.primary["name"] if self.primary else None
        if serving is not None:
            found["serves"] = dict(serving.term.counts)
        return found
