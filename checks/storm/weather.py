"""What happens in a round of the storm: one thing at random, or what it is told."""
from __future__ import annotations

import collections
import json
import os
import pathlib
import random
import signal
import time
from typing import Any, Callable, Dict, List, Optional

from romp801 import Failure, Records
from romp801.cluster.client import Cluster
from romp801.cluster.engine import EngineFault
from romp801.cluster.keys import Config, Keys
from romp801.cluster.setup import change, put_programs
from romp801.cluster.slots import Move
from romp801.request import Apply, Run, Word
from storm.house import House
from storm.load import ACCOUNT, SLOTS, Load, NotedOutbox

RECORDS = [Records.of("account", "balance u4", segment=1, size=ACCOUNT, count=15)]
KINDS = (
    "primary primary standby leader member stop stop-alone cut cut stop-member both both-cut two-nodes no-majority "
    "late old-reader deaf machine config all-nodes all wipe damage children stop-and-kill power power-all move move "
    "move-killed"
).split()


class Stopped(Exception):
    """Who moves a slot is killed."""


class Weather:
    """Rounds."""

    def __init__(self, house: House, load: Load, seed: int, stores: List[str]) -> None:
        self.house, self.load, self.stores = house, load, stores
        self.random = random.Random(seed)
        self.done: Dict[str, int] = collections.Counter()
        self.faults: List[str] = []
        self.moves, self.slow, self.programs = 0, 0, ""

    def round(self, what: str) -> str:
        """One round; answers what it did."""
        self.done[what] += 1
        store = self.random.choice(self.stores)
        first = self.primary(store) or self.random.choice((1, 2, 3))
        other = self.random.choice([it for it in (1, 2, 3) if it != first])
        work: Callable[[int, int, str], None] = getattr(self, "_" + what.replace("-", "_"))
        try:
            work(first, other, store)
        except EngineFault as fault:
            # (the engine was too slow for whoever makes the weather: that is no fault of the cluster's)
            self.slow += 1
            return f"{what}: {store}, primary n{first}, cut short: {fault}"
        return f"{what}: {store}, primary n{first}"

    def primary(self, store: str) -> Optional[int]:
        """The machine that has the store's primary, by the engine."""
        try:
            item = self.house.engine.get(Keys(store).primary, 1.0)
            return int(json.loads(item.value)["name"][1:]) if item else None
        except EngineFault:
            return None

    def _wait(self, least: float, most: float) -> None:
        """Some time goes by."""
        time.sleep(self.random.uniform(least, most))

    def _kill_node(self, it: int) -> None:
        """A node is killed, at times without its children, which go on for a while."""
        self.house.kill(f"n{it}", self.random.random() < 0.5)

    def _primary(self, first: int, other: int, store: str) -> None:
        self._kill_node(first)
        self._wait(0.2, 2)
        self.house.start_node(first)

    def _standby(self, first: int, other: int, store: str) -> None:
        self._primary(other, first, store)

    def _leader(self, first: int, other: int, store: str) -> None:
        self._member_of(self.house.leader())

    def _member(self, first: int, other: int, store: str) -> None:
        self._member_of(self.random.choice((1, 2, 3)))

    def _member_of(self, it: int) -> None:
        """A member is killed."""
        self.house.kill(f"e{it}")
        self._wait(0.2, 2)
        self.house.start_member(it)

    def _stop(self, first: int, other: int, store: str) -> None:
        """A primary stops for longer than its lease, with its children."""
        self.house.group(f"n{first}", signal.SIGSTOP)
        self._wait(3.5, 6)
        self.house.group(f"n{first}", signal.SIGCONT)

    def _stop_alone(self, first: int, other: int, store: str) -> None:
        """The same without its children."""
        os.kill(self.house.running[f"n{first}"].pid, signal.SIGSTOP)
        self._wait(3.5, 6)
        os.kill(self.house.running[f"n{first}"].pid, signal.SIGCONT)

    def _cut(self, first: int, other: int, store: str) -> None:
        """A primary doesn't reach the engine; what it had sent arrives later."""
        self.house.cut(f"n{first}")
        self._wait(1, 6)
        self.house.join(f"n{first}")

    def _late(self, first: int, other: int, store: str) -> None:
        """One of a primary's ways to the engine after another is cut: what it had sent arrives when much has come
        behind it."""
        for port in self.random.sample([self.house.base + 30 + 10 * first + it for it in (1, 2, 3)], 3):
            self.house.cut(f"n{first}-{port}")
            self._wait(1.5, 2.5)
            self.house.join(f"n{first}-{port}")

    def _deaf(self, first: int, other: int, store: str) -> None:
        """Members don't hear each other."""
        some = [self.house.leader()] if self.random.random() < 0.6 else self.random.sample((1, 2, 3), 2)
        self.house.cut(*(f"e{it}" for it in some))
        self._wait(1, 6)
        self.house.join(*(f"e{it}" for it in some))

    def _stop_member(self, first: int, other: int, store: str) -> None:
        it = self.house.leader()
        self.house.group(f"e{it}", signal.SIGSTOP)
        self._wait(1, 5)
        self.house.group(f"e{it}", signal.SIGCONT)

    def _both(self, first: int, other: int, store: str) -> None:
        it = self.house.leader()
        self.house.kill(f"e{it}")
        self._kill_node(first)
        self._wait(0.2, 2)
        self.house.start_node(first)
        self._wait(0, 1)
        self.house.start_member(it)

    def _both_cut(self, first: int, other: int, store: str) -> None:
        it = self.house.leader()
        self.house.cut(f"n{first}")
        self.house.kill(f"e{it}")
        self._wait(1, 5)
        self.house.start_member(it)
        self.house.join(f"n{first}")

    def _two_nodes(self, first: int, other: int, store: str) -> None:
        self._kill_node(first)
        self._kill_node(other)
        self._wait(0.2, 2)
        self.house.start_node(other)
        self.house.start_node(first)

    def _no_majority(self, first: int, other: int, store: str) -> None:
        two = self.random.sample((1, 2, 3), 2)
        for it in two:
            self.house.kill(f"e{it}")
        self._wait(0.2, 2)
        for it in two:
            self.house.start_member(it)

    def _all_nodes(self, first: int, other: int, store: str) -> None:
        for it in (1, 2, 3):
            self._kill_node(it)
        self._wait(0.2, 2)
        for it in (1, 2, 3):
            self.house.start_node(it)

    def _all(self, first: int, other: int, store: str) -> None:
        for it in (1, 2, 3):
            self._kill_node(it)
            self.house.kill(f"e{it}")
        self._wait(0.2, 2)
        self._start([1, 2, 3])

    def _start(self, machines: List[int]) -> None:
        """Members and nodes of machines begin."""
        for it in machines:
            self.house.start_member(it)
        for it in machines:
            self.house.start_node(it)

    def _power(self, first: int, other: int, store: str) -> None:
        """The power of the primary's machine, or of another, is cut."""
        it = self.random.choice((first, other))
        self.house.power([it])
        self._wait(0.2, 3)
        self._start([it])

    def _power_all(self, first: int, other: int, store: str) -> None:
        """The power of all machines is cut at one time."""
        self.house.power([1, 2, 3])
        self._wait(0.2, 1)
        self._start([1, 2, 3])

    def _machine(self, first: int, other: int, store: str) -> None:
        """A machine is lost with all that it has, and another takes its place."""
        it = self.random.choice((1, 2, 3))
        self.house.lose(it)
        self._wait(2, 6)
        if not self.house.replace_member(it):
            self.faults.append(f"machine: the engine doesn't take e{it} in")
        self.house.start_member(it, "existing")
        self.house.start_node(it)
        time.sleep(3)

    def _files(self, it: int) -> List[pathlib.Path]:
        """A node's files."""
        return [self.house.node_file(it, store) for store in self.stores if self.house.node_file(it, store).exists()]

    def _wipe(self, first: int, other: int, store: str) -> None:
        """A node's files are gone."""
        it = self.random.choice((1, 2, 3))
        self.house.kill(f"n{it}")
        for path in self._files(it):
            path.unlink()
        self.house.start_node(it)

    def _damage(self, first: int, other: int, store: str) -> None:
        """A node's files are cut in half, or their notes are."""
        it = self.random.choice((1, 2, 3))
        self.house.kill(f"n{it}")
        for path in self._files(it):
            which = self.random.choice((path, path.with_name(path.name + ".at")))
            data = which.read_bytes()
            which.write_bytes(data[: len(data) // 2])
        self.house.start_node(it)

    def _children(self, first: int, other: int, store: str) -> None:
        """The programs under the nodes alone are killed."""
        for _ in range(20):
            for it in (1, 2, 3):
                for path in pathlib.Path(f"/proc/{self.house.running[f'n{it}'].pid}/task").glob("*/children"):
                    try:
                        for child in path.read_text().split():
                            os.kill(int(child), signal.SIGKILL)
                    except (ProcessLookupError, FileNotFoundError):
                        pass
            time.sleep(0.05)

    def _stop_and_kill(self, first: int, other: int, store: str) -> None:
        self.house.group(f"n{first}", signal.SIGSTOP)
        it = self.random.choice((1, 2, 3))
        self.house.kill(f"e{it}")
        self._wait(3.5, 5)
        self.house.group(f"n{first}", signal.SIGCONT)
        self._wait(0, 1)
        self.house.start_member(it)

    def _config(self, first: int, other: int, store: str) -> None:
        """Other programs, which do the same, are put under load."""
        for _ in range(5):
            text = f"{self.programs}; {self.random.random()}\n"
            try:
                total = put_programs(self.house.engine, text)
                change(self.house.engine, lambda config: config._replace(programs=total))
            except EngineFault:
                pass
            self._wait(0, 0.3)

    def _move(self, first: int, other: int, store: str) -> None:
        """Slots are moved to another store."""
        for _ in range(3):
            self._move_one(self.random.randrange(SLOTS), store, lambda: None)

    def _move_killed(self, first: int, other: int, store: str) -> None:
        """The same, by one that stops in the middle and is called again."""
        slot = self.random.randrange(SLOTS)

        def stop() -> None:
            """Ends the first call."""
            raise Stopped

        try:
            self._move_one(slot, store, stop)
        except Stopped:
            self._wait(0, 1)
            self._move_one(slot, store, lambda: None)

    def _move_one(self, slot: int, store: str, between: Callable[[], None]) -> None:
        """Moves a slot, where the store has room."""
        config = Config.read(self.house.engine, 30.0)
        to = config.slots[slot].to
        if sum(it.store == store for it in config.slots) >= 13 or to is not None and to[0] != store:
            return
        cluster = self.load.cluster()
        box = NotedOutbox(self.load, cluster)
        move = NotedMove(self.house.engine, cluster, slot, store, RECORDS, 1)

        def settle(which: int) -> None:
            """Hands on, and perhaps stops."""
            box.settle(which)
            between()

        end = time.monotonic() + 2 * self.load.seconds
        for attempt in range(20):
            try:
                move.load = self.load
                move.work(settle)
                self.moves += 1
                return
            except (Failure, OSError) as failure:
                last = str(failure)
                time.sleep(0.5)
            if time.monotonic() > end:
                break
        self.faults.append(f"move: slot {slot} to {store}: {last}")

    def finish_moves(self) -> None:
        """Ends what a move left."""
        for slot, it in enumerate(Config.read(self.house.engine, 30.0).slots):
            if it.to is not None:
                self._move_one(slot, it.to[0], lambda: None)

    def _old_reader(self, first: int, other: int, store: str) -> None:
        """A primary that is cut off is asked what it has, while another goes on."""
        house, load = self.house, self.load
        load.calm.clear()
        load.wait_calm(10)
        others = ",".join(house.at(it) for it in (1, 2, 3) if it != first)
        reader, writer = load.cluster(1.0, 0.7, house.at(first)), load.cluster(4.0, 10.0, others)
        try:
            self._read(reader, store)
            house.cut(f"n{first}")
            end = time.monotonic() + 12
            while self.primary(store) in (None, first) and time.monotonic() < end:
                time.sleep(0.1)
            time.sleep(1.5)
            if self.primary(store) not in (None, first):
                self._old_asked(reader, writer, store)
        except (Failure, OSError):
            pass
        finally:
            house.join(f"n{first}")
            load.calm.set()

    def _old_asked(self, reader: Cluster, writer: Cluster, store: str) -> None:
        """The new primary takes a deposit and a word; the old one is asked what there is, and to change that word."""
        word = Word(3, 1792, (1 << 32) - 1, self.random.randrange(1, 1 << 32))
        self.load.ask(writer.store(store), [Run("deposit", (7, 15 * ACCOUNT)), Apply((), (word,))], {})
        for _ in range(3):
            self._read(reader, store)
        try:
            self.load.ask(reader.store(store), [Apply((word,), (word._replace(value=0),))], {})
        except (Failure, OSError):
            pass

    def _read(self, reader: Cluster, store: str) -> None:
        """Reads, if it is answered."""
        try:
            self.load.read(reader.store(store), (1, 0, 4096))
        except (Failure, OSError):
            reader.close()


class NotedMove(Move):
    """A move whose requests are noted."""

    load: Load

    def put(self, store: str, writes: List[Any], takes: Dict[str, Any]) -> List[Any]:
        """Asks, and notes."""
        return self.load.ask(self.cluster.store(store), writes, takes)
