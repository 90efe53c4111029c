"""A term: a node is the primary of a store, from when it put itself there until the engine says otherwise.

The primary runs each job on a working copy in memory, and puts its ship text by one transaction of the engine, which
holds only where the node is still the primary, the history still ends where the job began, and the programs and slots
are those that it knew. The text is read out of the records of the job, and meanwhile `ship` prints it: only where both
are one clients are answered. While a text is put the next job runs behind it; where the first isn't taken, neither is
the second.
"""
from __future__ import annotations

import threading
import time
from concurrent.futures import Future
from typing import Any, Callable, NamedTuple, Optional

from romp801 import job, program
from romp801.cluster import engine as etcd
from romp801.cluster.engine import Engine, EngineFault, Part, Refused
from romp801.cluster.held import Content, Held, Journal
from romp801.cluster.history import LARGEST, Done, Entry, head_of, link
from romp801.cluster.keys import CONFIG, PROGRAMS, Config
from romp801.cluster.replica import Replica
from romp801.cluster.table import Known, Late, Seen, Table, Who
from romp801.errors import FAILED, WRONG_USE, Failure
from romp801.report import Commit, Ended, Finish, line_of
from romp801.request import BATCH, Asked, Front, Take, is_conflict, is_final, message_of

AT_HEAD = 20.0
"""Seconds that a primary waits until its copy is at the head."""
BIG = 8


class Deposed(Exception):
    """This node isn't the store's primary any more."""


class _Moved(Exception):
    """The programs or the slots were changed: nothing of a job was put."""


class _TooMuch(Exception):
    """The records of a job don't all fit the bank, or its text is too long: a part of it is run."""


class Order(NamedTuple):
    """What goes with a request: whose it is, and the slots that it names."""

    who: Who
    guard: dict[str, Any]


class Elsewhere(Ended):
    """It wasn't run here: the request's slots aren't this store's, or the term is over."""


class Batch(NamedTuple):
    """A job that was run: where it began, its entry with its bytes, how its requests ended, and whether its text is
    what `ship` prints, as soon as that is known."""

    number: int
    sum: str
    config: int
    entry: Optional[Entry]
    packed: bytes
    ends: list[tuple[Asked, Ended]]
    is_shipped: Future[bool]


class Term:
    """The store in this term. `created` is the revision with which the node became the primary."""

    def __init__(
        self,
        replica: Replica,
        engine: Engine,
        created: int,
        is_alive: Callable[[], bool],
        told: Callable[[Asked, Ended], None],
        untold: Callable[[list[Asked], Failure], None],
        wake: Callable[[], None],
    ) -> None:
        self.replica, self.engine, self.created = replica, engine, created
        self.keys, self.program = replica.keys, replica.program
        self.is_alive, self.told, self.untold, self.wake = is_alive, told, untold, wake
        self.seen, self.lock = Seen(), threading.RLock()
        self.most, self.counts = BATCH, {"jobs": 0, "commits": 0, "halved": 0, "run": 0.0, "ship": 0.0, "put": 0.0}
        self.work: Optional[Held] = None
        self.free = threading.Condition()
        self.hand: Optional[Batch] = None
        self.why: Optional[str] = None
        self._begin()

    # beginning, and beginning anew

    def _begin(self) -> None:
        """Takes the programs and slots as they are, and a working copy at the history's end."""
        self.config = Config.read(self.engine)
        self.front = front_of(self.engine, self.config.programs)
        self._fresh()

    def _fresh(self) -> None:
        """A working copy of the replica, which must be at the history's end."""
        self._wait_settled()
        end = time.monotonic() + AT_HEAD
        while True:
            image = self.replica.snapshot()
            head = self.engine.get(self.keys.head)
            if head is not None and head.value == head_of(image.number, image.sum):
                break
            if time.monotonic() > end or not self.is_alive():
                raise Deposed(f"the copy is at {image.number}, and the history isn't")
            self.replica.hurry.set()
            self.wake()
            time.sleep(0.002)
        if self.work is not None:
            self.work.close()
        self.work, self.journal = Held(self.program, image.store), Journal(image.store)
        self.work.prepare()
        with self.lock:
            self.table, self.content, self.settled_config = image.table, Content(image.store), self.config.changed
        self.number, self.sum, self.is_fresh = image.number, image.sum, True

    def left(self, asked: Asked, end: Ended) -> None:
        """A request never ends."""
        with self.lock:
            self.seen.take(asked.more.who, end)
        self.told(asked, end)

    def find(self, who: Who) -> Known:
        """What became of a request, as far as it is settled."""
        with self.lock:
            found = self.table.find(who)
            return self.seen.find(who) or found if found is None or isinstance(found, Late) else found

    # running

    def run(self, asked: list[Asked], rounds: int, take: Take) -> None:
        """Runs these, as many at a time as the bank takes, and has what came of them put. Of those that can't be run
        whoever waits is told."""
        at = 0
        while at < len(asked):
            try:
                if self.why is not None:
                    raise Deposed(self.why)
                if not self.is_fresh:
                    self._begin()
                part = asked[at : at + self.most]
                self._part(part, rounds, lambda place, end, at=at: take(at + place, end))  # type: ignore[misc]
                at += len(part)
            except _TooMuch:
                self.most = max(1, len(part) // 2)
                self.counts["halved"] += 1
                self.is_fresh = False
            except (Deposed, EngineFault) as why:
                self.over(str(why))
                self._give_back(asked, at, take, Failure(str(why)))
                return
            except Failure as failure:
                self._give_back(asked, at, take, failure)
                return

    def _give_back(self, asked: list[Asked], at: int, take: Take, failure: Failure) -> None:
        """Those from a place on weren't run."""
        self.untold(asked[at:], failure)
        for place in range(at, len(asked)):
            take(place, Elsewhere(0))

    def _part(self, asked: list[Asked], rounds: int, take: Take) -> None:
        """Runs one job of these."""
        places: list[int] = []
        ends: list[tuple[int, Ended]] = []
        for place, it in enumerate(asked):
            found = self.find(it.more.who)
            if isinstance(found, Ended):
                self.told(it, found)
                take(place, found)
            elif found is not None:
                # (an old copy, or one of which it isn't known: it is told so where it is asked again)
                self.untold([it], Failure("it was asked before"))
                take(place, Elsewhere(0))
            elif not self.config.has(self.replica.name, it.more.guard):
                ends.append((place, Elsewhere(0)))
            else:
                places.append(place)
        ran, last, text = self._run([asked[it] for it in places], rounds) if places else ([], self.number, "")
        ends += [(places[place], end) for place, end in ran]
        entry = self._entry([(asked[place], end) for place, end in ends], last, text)
        packed = entry.packed() if entry is not None else b""
        if len(packed) > LARGEST and len(asked) > 1:
            raise _TooMuch
        if len(asked) == self.most:
            self.most = min(BATCH, self.most + max(1, self.most // 8))
        for place, end in ends:
            take(place, end)
        told = [(asked[it], end) for it, end in ends]
        batch = Batch(self.number, self.sum, self.config.changed, entry, packed, told, Future())
        if entry is not None:
            self.number, self.sum = entry.last, entry.sum
        if self._put(batch):
            self._hold(batch)

    def _run(self, asked: list[Asked], rounds: int) -> tuple[list[tuple[int, Ended]], int, str]:
        """Runs a job on the working copy: how its requests ended, the number behind it, and its ship text. It begins
        with a checkpoint, so that the whole bank is free for it."""
        assert self.work is not None
        begun, ends = time.monotonic(), []

        def hand(end: Ended) -> None:
            """One that ended."""
            if is_final(end):
                ends.append((end.activation - 1, end))

        text = self.front.job([it.request for it in asked], rounds, [job.Checkpoint()])
        told = self.work.job(text, hand)
        if told.status == BIG or told.status == program.JOB and len(asked) > 1:
            raise _TooMuch
        if told.status:
            self.is_fresh = False
            raise Failure(program.ended(told.status, told.errors), WRONG_USE if told.status == program.JOB else FAILED)
        finish = line_of(told.report.decode().splitlines()[-1])
        assert isinstance(finish, Finish)
        self.counts["jobs"] += 1
        self.counts["run"] += time.monotonic() - begun
        return ends, finish.number, self._text(finish.number) if finish.number != self.number else ""

    def _text(self, last: int) -> str:
        """The ship text of the job that was run, out of the records that it left."""
        assert self.work is not None
        text = self.journal.text(self.work.file, self.number)
        if text is None:
            raise _TooMuch
        if int(text.split()[-1]) != last:
            raise Deposed(f"the text ends with {text.split()[-1]}, and the job with {last}")
        return text

    def _entry(self, ends: list[tuple[Asked, Ended]], last: int, text: str) -> Optional[Entry]:
        """The entry of a job, or None where nothing was committed."""
        if last == self.number:
            return None
        commits = [(it, end) for it, end in ends if isinstance(end, Commit) and self.number < end.number <= last]
        commits.sort(key=lambda it: it[1].number)
        done = tuple(Done(it.more.who, message_of(it.request), end) for it, end in commits)
        return Entry(self.number, last, link(self.sum, text), self.created, self.config.programs, done, text)

    # putting

    def _put(self, batch: Batch) -> bool:
        """Has a job put, when the one before it is settled; answers whether it is being put."""
        self._wait_settled()
        with self.free:
            if self.is_fresh and self.why is None:
                self.hand = batch
                self.free.notify_all()
                return True
        self._throw_away(batch, "the job before it wasn't taken")
        return False

    def _hold(self, batch: Batch) -> None:
        """Holds the text that is being put against what `ship` prints: nobody is told before."""
        assert self.work is not None
        begun, is_same = time.monotonic(), False
        try:
            is_same = batch.entry is None or self.work.shipped(batch.number) == batch.entry.text
        except Failure as failure:
            self.over(str(failure))
        finally:
            batch.is_shipped.set_result(is_same)
            self.counts["ship"] += time.monotonic() - begun

    def _wait_settled(self) -> None:
        """Waits until nothing is being put."""
        with self.free:
            self.free.wait_for(lambda: self.hand is None or self.why is not None)

    def put_loop(self) -> None:
        """Puts jobs, one after another, until the term is over."""
        while True:
            with self.free:
                self.free.wait_for(lambda: self.hand is not None or self.why is not None)
                batch = self.hand
            if batch is None or self.why is not None:
                if batch is not None:
                    self._throw_away(batch, "the term is over")
                return
            begun = time.monotonic()
            try:
                self._settle(batch)
                self._settled(batch)
            except _Moved:
                self.is_fresh = False
                self._throw_away(batch, "the programs or the slots were changed")
            except Exception as why:  # (whatever it is, nothing is told, and the term is over)
                self.over(f"{type(why).__name__}: {why}")
                self._throw_away(batch, str(why))
            self.counts["put"] += time.monotonic() - begun
            with self.free:
                self.hand = None
                self.free.notify_all()

    def compares(self, batch: Batch) -> list[Part]:
        """What must hold for a job to be taken: this node is the primary, the history ends where the job began, and
        the programs and slots are those that it knew."""
        return [
            etcd.is_created(self.keys.primary, self.created),
            etcd.is_value(self.keys.head, head_of(batch.number, batch.sum)),
            etcd.is_changed(CONFIG, batch.config),
        ]

    def _settle(self, batch: Batch) -> None:
        """Has the engine take a job, or raises Deposed or _Moved where it wasn't taken and never will be."""
        entry, deeds = batch.entry, []
        if entry is not None:
            deeds = [
                etcd.put(self.keys.log(entry.last), batch.packed),
                etcd.put(self.keys.head, head_of(entry.last, entry.sum)),
            ]
        while True:
            held: Optional[bool]
            try:
                held = self.engine.transaction(self.compares(batch), deeds)
            except Refused as why:
                raise Deposed(str(why)) from why
            except EngineFault:
                held = None
            if held or self._was_taken(entry, batch.packed, batch.config):
                return
            if held is False:
                raise Deposed(f"the engine refused what comes behind {batch.number}")
            time.sleep(0.02)

    def _was_taken(self, entry: Optional[Entry], packed: bytes, config: int) -> bool:
        """Whether a job was taken of which no yes came: the engine has its entry. Raises Deposed or _Moved where it
        wasn't and never will be."""
        while True:
            try:
                item = self.engine.get(self.keys.log(entry.last)) if entry is not None else None
                primary, now = self.engine.get(self.keys.primary), self.engine.get(CONFIG)
                break
            except EngineFault:
                # (nobody can be told anything before the engine answers)
                time.sleep(0.1)
        if item is not None and item.value == packed:
            return True
        if primary is None or primary.created != self.created:
            raise Deposed("another is the primary")
        if now is None or now.changed != config:
            raise _Moved
        return False

    def _settled(self, batch: Batch) -> None:
        """A job was taken: all that ended in it is told, where its text is that of `ship`."""
        if not batch.is_shipped.result():
            raise Deposed(f"what was put behind {batch.number} isn't what `ship` prints")
        with self.lock:
            for it, end in batch.ends:
                if isinstance(end, Commit):
                    self.table.take(it.more.who, end, end.number)
                elif not isinstance(end, Elsewhere) and not (is_conflict(end) and it.more.who.is_once):
                    self.seen.take(it.more.who, end)
            self.settled_config = batch.config
            if batch.entry is not None:
                self.content.take(batch.entry.text, batch.entry.last)
                self.counts["commits"] += len(batch.entry.done)
        for it, end in batch.ends:
            self.told(it, end)
        if batch.entry is not None:
            self.replica.offer(batch.entry)
            self.wake()

    def _throw_away(self, batch: Batch, why: str) -> None:
        """A job wasn't taken: those that ended in it are asked again."""
        self.untold([it for it, _ in batch.ends], Failure(why))

    # the end

    def over(self, why: str) -> None:
        """The term is over."""
        with self.free:
            self.why = self.why or why
            self.free.notify_all()

    def close(self) -> None:
        """Forgets the working copy."""
        if self.work is not None:
            self.work.close()
            self.work = None


def front_of(engine: Engine, total: str) -> Front:
    """The programs with this sum."""
    item = engine.get(PROGRAMS + total.encode())
    if item is None:
        raise EngineFault(f"the engine has no programs {total}")
    return Front(item.value.decode("latin-1"))
