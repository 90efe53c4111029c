"""Clients of the storm: what each asked, when, and what it was told."""
from __future__ import annotations

import collections
import random
import threading
import time
from typing import Any, Callable, Deque, Dict, List, NamedTuple, Optional, Tuple

from romp801 import Failure, Records, Transaction
from romp801.cluster.client import Cluster, ClusterStore, Place, TooLate, Unanswered, guard_of
from romp801.cluster.outbox import Outbox
from romp801.errors import WRONG_USE
from romp801.report import Commit, Ended
from romp801.request import Apply, Request, Run, Word, message_of

SLOTS = 24
"""Slots, each with one account."""
ACCOUNT = 256
ENDS = 0.15
"""How often a session ends behind a call, so that nothing comes behind what it asked last."""
REGISTERS, REGISTER_SEGMENT = 6, 3
WHOLE = (1 << 32) - 1
COUNTER = Records.of("counter", "value u4", segment=3, start=2048, size=256, count=4)


class Noted(NamedTuple):
    """A request: its store, whose it was, what it asked, when it was begun and answered, and the answer; None where
    none came."""

    store: str
    who: Tuple[Any, ...]
    asked: Request
    begun: float
    told: float
    end: Optional[Ended]


class Shown(NamedTuple):
    """Bytes that were read: where, when, and of which number."""

    store: str
    range: Tuple[int, int, int]
    begun: float
    told: float
    number: int
    data: bytes


class Operation(NamedTuple):
    """One on a register: by whom, of which kind, its values, when, and what came of it; None where that isn't
    known."""

    key: str
    client: int
    kind: str
    first: int
    second: int
    begun: float
    told: float
    result: Optional[int]


class Sent(NamedTuple):
    """A message as it was sent: to which store, and all that it has."""

    store: str
    message: Dict[str, Any]


class Ticket(NamedTuple):
    """A request that was done under a ticket, and what it was told."""

    store: str
    name: str
    request: Request
    told: Any


class Load:
    """All clients."""

    def __init__(self, nodes: str, stores: List[str], seed: int) -> None:
        self.nodes, self.stores, self.seed = nodes, stores, seed
        self.order = random.Random(f"{seed} sessions")
        self.over, self.calm = threading.Event(), threading.Event()
        self.calm.set()
        self.lock, self.busy = threading.Lock(), 0
        self.noted: List[Noted] = []
        self.shown: List[Shown] = []
        self.operations: List[Operation] = []
        self.faults: List[str] = []
        self.sent: Deque[Sent] = collections.deque(maxlen=400)
        self.refused: Deque[Sent] = collections.deque(maxlen=2000)
        self.tickets: Deque[Ticket] = collections.deque(maxlen=200)
        self.counted: Dict[Tuple[str, int], List[int]] = {}
        self.times: List[float] = []
        self.values = 0
        self.seconds = 100.0

    def cluster(self, patience: float = 4.0, seconds: Optional[float] = None, nodes: Optional[str] = None) -> Cluster:
        """A client."""
        return Cluster(nodes or self.nodes, None, self.seconds if seconds is None else seconds, patience)

    def wait_calm(self, seconds: float) -> bool:
        """Whether nobody has anything under way any more; `calm` is clear, so nobody begins."""
        end = time.monotonic() + seconds
        while self.busy and time.monotonic() < end:
            time.sleep(0.02)
        return not self.busy

    def start(self, count: int) -> List[threading.Thread]:
        """Begins clients."""
        threads = [threading.Thread(target=self.client, args=(it,), daemon=True) for it in range(count)]
        for it in threads:
            it.start()
        return threads

    def client(self, place: int) -> None:
        """One client, until it is over."""
        order = random.Random(f"{self.seed} {place}")
        cluster = self.cluster()
        while not self.over.is_set():
            self.calm.wait()
            with self.lock:
                self.busy += 1
            try:
                work: Any = order.choice(
                    (
                        self.transfers,
                        self.transfers,
                        self.transfers,
                        self.registers,
                        self.registers,
                        self.count,
                        self.look,
                        self.once,
                        self.again,
                        self.copies,
                    )
                )
                work(cluster, order, place)
            except (Unanswered, TooLate) as failure:
                with self.lock:
                    self.faults.append(f"late: client {place}: {failure}")
                cluster = self.cluster()
            except Exception as failure:  # (whatever it is, it is told)
                with self.lock:
                    self.faults.append(f"client: {place}: {type(failure).__name__}: {failure}")
            finally:
                with self.lock:
                    self.busy -= 1

    def ask(
        self, store: ClusterStore, requests: List[Request], guard: Dict[str, Any], name: Optional[str] = None
    ) -> List[Optional[Ended]]:
        """Asks, and notes what is told."""
        begun, moment = time.monotonic(), store.moment
        try:
            ends = store.tried(requests, name, guard)
        except (Unanswered, TooLate):
            with self.lock:
                self.noted += [
                    Noted(store.name, tuple(who), it, begun, time.monotonic(), None)
                    for who, it in zip(store.asked, requests)
                ]
            raise
        told = time.monotonic()
        with self.lock:
            self.times.append(told)
            for who, it, end in zip(store.asked, requests, ends):
                if end is not None:
                    self.noted.append(Noted(store.name, tuple(who), it, begun, told, end))
                    message = {"store": store.name, "at": moment, **message_of(it), **guard, "who": who}
                    (self.sent if end.word == "commit" else self.refused).append(Sent(store.name, message))
            if self.order.random() < ENDS:
                store.begin_session()
        return ends

    def by_keys(self, cluster: Cluster, keys: List[int], build: Callable[[List[Place]], List[Request]]) -> None:
        """Requests on accounts, at the store that has them; again where slots were moved meanwhile."""
        left: Optional[List[int]] = None
        for _ in range(400):
            places = [cluster.find(it) for it in keys]
            if len({it.store for it in places}) != 1:
                return
            requests = build(places)
            left = [*range(len(requests))] if left is None else left
            ends = self.ask(cluster.store(places[0].store), [requests[it] for it in left], guard_of(places))
            left = [it for it, end in zip(left, ends) if end is None]
            if not left:
                return
            cluster.slots = []
            time.sleep(0.05)
        raise Failure(f"the slots of {keys} stay frozen")

    def transfers(self, cluster: Cluster, order: random.Random, _: int) -> None:
        """Deposits, transfers, and letters to other stores."""
        one = order.randrange(SLOTS)
        same = [it for it in range(SLOTS) if cluster.find(it).store == cluster.find(one).store]
        other = order.choice(same)
        kinds = [order.random() for _ in range(order.choice([1, 1, 1, 2, 5, 40]))]
        amounts = [order.randrange(1, 60) for _ in kinds]
        keys = [order.randrange(SLOTS) for _ in kinds]

        def build(places: List[Place]) -> List[Request]:
            """The requests at these places."""
            first, second = (it.place * ACCOUNT for it in places)
            found: List[Request] = []
            for kind, amount, key in zip(kinds, amounts, keys):
                if kind < 0.2:
                    found.append(Run("deposit", (amount, first)))
                elif kind < 0.75:
                    found.append(Run("move", (amount, first, second)))
                else:
                    found.append(Run("send", (amount // 2 + 1, first, key)))
            return found

        self.by_keys(cluster, [one, other], build)

    def registers(self, cluster: Cluster, order: random.Random, place: int) -> None:
        """Writes, reads, and compares and writes of a register."""
        store = cluster.store(order.choice(self.stores))
        at = order.randrange(REGISTERS)
        kind = order.choice(("write", "read", "read", "swap", "swap"))
        with self.lock:
            self.values += 1
            second = self.values
        first = order.choice(self._recent(f"{store.name}.{at}"))
        begun, result = time.monotonic(), None
        try:
            if kind == "read":
                number, (data,) = store.look([[REGISTER_SEGMENT, at * 256, 4]])
                result = int.from_bytes(data, "big")
                with self.lock:
                    self.shown.append(
                        Shown(store.name, (REGISTER_SEGMENT, at * 256, 4), begun, time.monotonic(), number, data)
                    )
            else:
                compare = (Word(REGISTER_SEGMENT, at * 256, WHOLE, first),) if kind == "swap" else ()
                it = Apply(compare, (Word(REGISTER_SEGMENT, at * 256, WHOLE, second),))
                end = self.ask(store, [it], {})[0]
                result = int(end is not None and end.word == "commit")
        finally:
            with self.lock:
                self.operations.append(
                    Operation(f"{store.name}.{at}", place, kind, first, second, begun, time.monotonic(), result)
                )

    def _recent(self, key: str) -> List[int]:
        """Values that a register had lately."""
        with self.lock:
            found = [it.result if it.kind == "read" else it.second for it in self.operations[-60:] if it.key == key]
        return [it for it in found if it is not None] or [0]

    def count(self, cluster: Cluster, order: random.Random, _: int) -> None:
        """A counter by Python: what it was is in the history."""
        store = cluster.store(order.choice(self.stores))
        at = order.randrange(COUNTER.count)

        def one_more(t: Transaction) -> None:
            """One more."""
            t[COUNTER[at]].value += 1

        def one() -> bool:
            """Tries it once."""
            t = Transaction(store.source())
            one_more(t)
            end = self.ask(store, [t.request()], {})[0]
            return end is not None and end.word == "commit"

        for _ in range(50):
            if one():
                with self.lock:
                    self.counted.setdefault((store.name, at), []).append(1)
                return

    def once(self, cluster: Cluster, order: random.Random, place: int) -> None:
        """A counter under a ticket, asked for twice, the second time by another client: one commit."""
        store = cluster.store(order.choice(self.stores))
        ticket = store.ticket()
        request: Request = Run("deposit", (1, 4096 - 256))
        first = self.ask(store, [request], {}, ticket)[0]
        other = self.cluster()
        again = self.ask(other.store(store.name), [request], {}, ticket)[0]
        other.close()
        told = [(it.number, it.out) if isinstance(it, Commit) else it for it in (first, again)]
        with self.lock:
            self.tickets.append(Ticket(store.name, ticket, request, told[0]))
            if told[0] != told[1]:
                self.faults.append(f"once: {ticket} was told {first}, and then {again}")

    def again(self, cluster: Cluster, order: random.Random, _: int) -> None:
        """A ticket that was asked for long ago is asked for once more."""
        with self.lock:
            it = order.choice(self.tickets) if self.tickets else None
        if it is None:
            return
        end = self.ask(cluster.store(it.store), [it.request], {}, it.name)[0]
        told = (end.number, end.out) if isinstance(end, Commit) else end
        if told != it.told:
            with self.lock:
                self.faults.append(f"once: {it.name} was told {it.told}, and then {told}")

    def copies(self, cluster: Cluster, order: random.Random, _: int) -> None:
        """Old copies of messages that were answered, some by having given up, arrive once more, at any node: it may
        say what it likes, and does nothing."""
        with self.lock:
            some = [it for them in (self.sent, self.refused) for it in order.sample(them, min(len(them), 4))]
        at = cluster.nodes.next()
        for it in some:
            try:
                cluster.nodes.one(at, it.message)
            except OSError:
                return

    def look(self, cluster: Cluster, order: random.Random, _: int = 0, within: Optional[str] = None) -> None:
        """All accounts at one moment."""
        self.read(cluster.store(within or order.choice(self.stores)), (1, 0, 4096))

    def read(self, store: ClusterStore, where: Tuple[int, int, int]) -> bytes:
        """Reads, and notes it."""
        begun = time.monotonic()
        number, (data,) = store.look([[*where]])
        with self.lock:
            self.shown.append(Shown(store.name, where, begun, time.monotonic(), number, data))
        return data

    def drain(self, threads: List[threading.Thread], until: Callable[[], bool]) -> None:
        """Drains outboxes, until all clients have ended and nothing is left."""
        cluster = self.cluster()
        box = NotedOutbox(self, cluster)
        while not until():
            self.calm.wait()
            is_last = self.over.is_set() and not any(it.is_alive() for it in threads)
            box.handed, box.kills = 0, 0.0 if is_last else 0.2
            with self.lock:
                self.busy += 1
            try:
                left = box.drain()
            except (Failure, OSError) as failure:
                if isinstance(failure, Failure) and failure.status == WRONG_USE:
                    with self.lock:
                        self.faults.append(f"drain: {failure}")
                time.sleep(0.2)
                cluster = self.cluster()
                box = NotedOutbox(self, cluster)
                continue
            finally:
                with self.lock:
                    self.busy -= 1
            if is_last and not left and not box.handed:
                return
            time.sleep(0.05 if box.handed else 0.3)


class NotedOutbox(Outbox):
    """An outbox whose requests are noted, and of which one that drains is killed at times."""

    def __init__(self, load: Load, cluster: Cluster) -> None:
        super().__init__(cluster)
        self.load, self.handed, self.kills = load, 0, 0.0
        self.order = random.Random(load.seed)

    def tried(self, store: str, requests: List[Request], guard: Dict[str, Any]) -> List[Optional[Ended]]:
        """Asks, and notes."""
        if self.order.random() < self.kills:
            raise Failure("who drained was killed")
        self.handed += len(requests)
        return self.load.ask(self.cluster.store(store), requests, guard)

    def settle(self, slot: int) -> None:
        """Hands on what lies there for a frozen slot, for as long as an answer may take."""
        end = time.monotonic() + self.load.seconds
        while self.drain(slot):
            if time.monotonic() > end:
                raise Failure(f"what lies in outboxes for slot {slot} isn't taken")
