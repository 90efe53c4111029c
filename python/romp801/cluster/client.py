"""A client of a cluster: its stores, as romp801.connect has one (docs/CLUSTER.md, "From Python").

    cluster = Cluster("10.0.0.1:8010,10.0.0.2:8010,10.0.0.3:8010", Safety.of("tls", "secret"))
    bank = cluster.store("bank")
    bank.run(("deposit", 100, 0))
    bank.update(function)

It asks whichever node is the primary, and asks again under the same name where no answer came, so each request is done
once. One thread has a store at a time.
"""
from __future__ import annotations

import os
import random
import socket
import time
from typing import Any, Callable, Iterable, Mapping, NamedTuple, Optional

from romp801.client import READ, Moment, Store, TooLate as TooLate, end_told
from romp801.cluster.safety import Safety, address
from romp801.cluster.table import AHEAD, ONCE
from romp801.errors import Failure
from romp801.records import mistaken
from romp801.report import Ended
from romp801.request import Request, Run, message_of
from romp801.wire import Wire

GUARDS = ("slots", "frozen", "filled")
PATIENCE = 5.0
"""Seconds without an answer of a node, after which another is asked."""


class Moved(Failure):
    """Slots that a request names aren't where it says any more: nothing was done."""


class Unanswered(Failure):
    """No answer came in time: it isn't known whether it was done."""


class Nodes:
    """The nodes of a cluster, and who of them was the primary of what."""

    def __init__(self, nodes: str, safety: Safety, seconds: float = 60.0, patience: float = PATIENCE) -> None:
        self.nodes = [it.strip() for it in nodes.split(",")]
        for it in self.nodes:
            address(it)
        self.safety, self.tls = safety, safety.asks()
        self.seconds, self.patience = seconds, patience
        self.wires: dict[str, Wire] = {}
        self.turn = random.randrange(len(self.nodes))

    def wire(self, at: str) -> Wire:
        """The connection to a node."""
        found = self.wires.get(at)
        if found is None:
            host, port = address(at)
            link = socket.create_connection((host, port), self.patience)
            if link.getsockname() == link.getpeername():
                # (where nobody listens at a port that the system hands out, a connection may meet itself)
                link.close()
                raise ConnectionRefusedError(f"nobody listens at {at}")
            link.setsockopt(socket.IPPROTO_TCP, socket.TCP_NODELAY, 1)
            if self.tls is not None:
                link = self.tls.wrap_socket(link, server_hostname=host)
            found = self.wires[at] = Wire(link, self.patience)
            if self.safety.secret is not None:
                for _ in found.ask({0: {"hello": True, "secret": self.safety.secret}}):
                    pass
        return found

    def leave(self, at: str) -> None:
        """Ends the connection to a node."""
        found = self.wires.pop(at, None)
        if found is not None:
            found.close()

    def next(self) -> str:
        """Another node."""
        self.turn += 1
        return self.nodes[self.turn % len(self.nodes)]

    def one(self, at: str, message: Mapping[str, Any]) -> dict[str, Any]:
        """The answer of one node; raises OSError."""
        try:
            for _, answer in self.wire(at).ask({1: message}):
                return answer
        except OSError:
            self.leave(at)
            raise
        raise AssertionError("no answer")

    def any(self, message: Mapping[str, Any]) -> dict[str, Any]:
        """The answer of whichever node has one."""
        end, why = time.monotonic() + self.seconds, ""
        while time.monotonic() < end:
            try:
                answer = self.one(self.next(), message)
                if "error" not in answer:
                    return answer
                why = answer["error"]
            except OSError as error:
                why = str(error)
            time.sleep(0.05)
        raise Unanswered(f"no node answers: {why}")

    def close(self) -> None:
        """Ends all connections."""
        for at in [*self.wires]:
            self.leave(at)


class ClusterStore(Store):
    """A store of a cluster. `asked` says whose the requests of the last call were."""

    def __init__(self, nodes: Nodes, name: str) -> None:
        self.nodes, self.name = nodes, name
        self.at: Optional[str] = None
        self.moment: Optional[list[int]] = None
        self.since, self._segments = 0, dict[int, int]()
        self.asked: list[list[Any]] = []
        self.begin_session()

    def begin_session(self) -> None:
        """Begins a session: a name that nobody had before."""
        self.session, self.first = os.urandom(8).hex(), 0
        self.began: Optional[int] = None

    # what a store has

    @property
    def segments(self) -> Mapping[int, int]:
        """The bytes of each segment."""
        if not self._segments:
            self._stat()
        return self._segments

    def _stat(self) -> int:
        """The store's number, which isn't above what it has."""
        answer = self._exchange([{"stat": True}])[0]
        self._segments = {int(it): size for it, size in answer["segments"].items()}
        self.since = max(self.since, answer["number"])
        return int(answer["number"])

    def number(self) -> int:
        """The store's number: how many commits it has had."""
        segment = next(iter(self.segments))
        return int(self._exchange([{"read": [[segment, 0, 0]]}])[0]["number"])

    def source(self) -> Moment:
        """Where a transaction that begins now reads."""
        return Moment(self)

    def read(self, keys: list[tuple[int, int]]) -> tuple[int, dict[tuple[int, int], bytes]]:
        """Blocks of the store, all of one moment, and its number."""
        return self.blocks(keys, {})

    def blocks(
        self, keys: list[tuple[int, int]], guard: Mapping[str, Any]
    ) -> tuple[int, dict[tuple[int, int], bytes]]:
        """The same, of slots that are here."""
        wanted = Moment.ranges(keys, self.segments)
        if sum(count for _, _, count in wanted) > READ:
            raise mistaken(f"a transaction over a served store reads at most {READ} bytes")
        number, data = self.look(wanted, guard)
        return number, dict(zip(keys, data))

    def look(self, ranges: Iterable[Iterable[int]], guard: Mapping[str, Any] = {}) -> tuple[int, list[bytes]]:
        """Bytes of these ranges, each a segment, an offset and how many, all of one moment, and of which number they
        are. Where `guard` names slots that aren't here Moved is raised."""
        answer = self._exchange([{"read": [[*it] for it in ranges], **guard}])[0]
        if "moved" in answer:
            raise Moved("the slots that are read aren't there any more")
        return int(answer["number"]), [bytes.fromhex(it) for it in answer["bytes"]]

    def ticket(self) -> str:
        """A name under which something is done once, to be kept before it is asked for: whoever has it may ask
        again."""
        self._stat()
        return f"{self.since}.{ONCE}{os.urandom(8).hex()}"

    def answered(self, name: str) -> Optional[Ended]:
        """How a request under a ticket ended, or None."""
        ticket, place = name.rsplit(".", 1)
        return end_told(self._exchange([{"answered": [*_ticket(ticket), 0, int(place)]}])[0]["end"])

    def ask(self, requests: list[Request], name: Optional[str] = None, guard: Mapping[str, Any] = {}) -> list[Ended]:
        """Runs requests to their ends, each once. `name` is a ticket, under which they are run once whoever asks
        again; `guard` names slots that they need here, and where one isn't Moved is raised."""
        found = self.tried(requests, name, guard)
        if None in found:
            raise Moved("the slots that a request names aren't there any more")
        return [it for it in found if it is not None]

    def tried(
        self, requests: list[Request], name: Optional[str] = None, guard: Mapping[str, Any] = {}
    ) -> list[Optional[Ended]]:
        """The same, with None for each whose slots aren't here: that wasn't run."""
        found: list[Optional[Ended]] = []
        for at in range(0, len(requests), AHEAD):
            part = requests[at : at + AHEAD]
            answers = self._exchange([{**message_of(it), **guard} for it in part], at, name)
            found += [None if "moved" in it else end_told(it["end"]) for it in answers]
        return found

    def close(self) -> None:
        """Ends the connections."""
        self.nodes.close()

    # asking

    def _who(self, count: int, at: int, name: Optional[str]) -> list[list[Any]]:
        """Whose so many requests are."""
        if name is not None:
            since, session = _ticket(name)
            return [[since, session, at, at + place] for place in range(count)]
        if self.began is None:
            self.began = self.since
        first = self.first
        self.first += count
        return [[self.began, self.session, first, first + place] for place in range(count)]

    def _exchange(
        self, messages: list[dict[str, Any]], at: int = 0, name: Optional[str] = None
    ) -> list[dict[str, Any]]:
        """The answers of messages, in their order."""
        asks = "run" in messages[0] or "write" in messages[0]
        if asks and self.moment is None:
            self._stat()
        exchange = _Exchange(self, messages, self._who(len(messages), at, name) if asks else None, name is None)
        if exchange.who is not None:
            self.asked = exchange.who
        try:
            return exchange.work()
        except (Unanswered, TooLate):
            # (what this session asked may have no answer, so its count can't go on)
            self.begin_session()
            raise


class _Exchange:
    """Messages of one call, until each is answered."""

    def __init__(
        self, store: ClusterStore, messages: list[dict[str, Any]], who: Optional[list[list[Any]]], renews: bool
    ) -> None:
        self.store, self.messages, self.who, self.renews = store, messages, who, renews
        self.answers: dict[int, dict[str, Any]] = {}
        self.unsure: set[int] = set()
        self.sent: set[int] = set()

    def work(self) -> list[dict[str, Any]]:
        """All answers, in their order."""
        store = self.store
        end, why = time.monotonic() + store.nodes.seconds, "it can't tell yet"
        while len(self.answers) < len(self.messages):
            had = len(self.answers)
            at = store.at or store.nodes.next()
            try:
                self._send(at)
            except OSError as error:
                store.nodes.leave(at)
                self.unsure |= self.sent
                store.at, why = None, str(error)
            if len(self.answers) == had:
                if time.monotonic() > end:
                    raise Unanswered(f"{store.name} has no answer in {store.nodes.seconds:g} seconds: {why}")
            else:
                end = time.monotonic() + store.nodes.seconds
        return [self._final(self.answers[place]) for place in range(len(self.messages))]

    def _send(self, at: str) -> None:
        """Sends what isn't answered to a node, and takes what it says."""
        store = self.store
        left = [place for place in range(len(self.messages)) if place not in self.answers]
        said = {place: self._message(place) for place in left}
        is_slow, is_elsewhere = False, False
        wire = store.nodes.wire(at)
        self.sent = {*left}
        for place, answer in wire.ask(said):
            self.sent.discard(place)
            if "at" in answer:
                store.moment = answer["at"]
            if "number" in answer:
                store.since = max(store.since, answer["number"])
            if "moment" in answer:
                store.at = at
            elif "elsewhere" in answer:
                is_elsewhere = True
                store.at = answer["elsewhere"] if answer["elsewhere"] != at else None
            elif "again" in answer:
                self.unsure.add(place)
                is_slow = True
            elif "late" in answer:
                self._late(place)
            else:
                store.at = at
                self.answers[place] = answer
        if is_slow or is_elsewhere and store.at is None:
            time.sleep(0.02)

    def _message(self, place: int) -> dict[str, Any]:
        """A message as it is sent."""
        found = {"store": self.store.name, "at": self.store.moment, **self.messages[place]}
        return found if self.who is None else {**found, "who": self.who[place]}

    def _late(self, place: int) -> None:
        """The session may have been forgotten. What wasn't asked before is asked in another."""
        store = self.store
        if place in self.unsure or not self.renews or self.who is None:
            raise TooLate(f"{store.name}: too much was done since this was asked: it isn't known whether it was done")
        if self.who[place][1] == store.session:
            store.begin_session()
        # (none of this call's may be forgotten before it has its answer)
        self.who[place] = [store.since if store.began is None else store.began, store.session, 0, store.first]
        store.began = self.who[place][0]
        store.first += 1

    @staticmethod
    def _final(answer: dict[str, Any]) -> dict[str, Any]:
        """An answer; raises what it says."""
        if "error" in answer:
            raise mistaken(str(answer["error"]))
        return answer


def _ticket(name: str) -> list[Any]:
    """The number and the name of a ticket."""
    since, _, session = name.partition(".")
    if not since.isdigit() or not session.startswith(ONCE):
        raise mistaken(f"{name} is no ticket: a store's `ticket` makes them")
    return [int(since), session]


class Place(NamedTuple):
    """Where a key's records are: the store, the slot, the place among the store's places, and the key's row in it."""

    store: str
    slot: int
    place: int
    turn: int
    row: int


class Cluster:
    """A cluster, by its nodes."""

    def __init__(
        self, nodes: str, safety: Optional[Safety] = None, seconds: float = 60.0, patience: float = PATIENCE
    ) -> None:
        self.nodes = Nodes(nodes, safety or Safety(), seconds, patience)
        self.stores: dict[str, ClusterStore] = {}
        self.slots: list[Any] = []

    def store(self, name: str) -> ClusterStore:
        """A store."""
        if name not in self.stores:
            self.stores[name] = ClusterStore(self.nodes, name)
        return self.stores[name]

    def status(self, at: str) -> dict[str, Any]:
        """What a node does; raises OSError."""
        return self.nodes.one(at, {"status": True})

    def find(self, key: int, anew: bool = False) -> Place:
        """Where a key's records are: slot key modulo slots, row key divided by slots."""
        if anew or not self.slots:
            self.slots = self.nodes.any({"table": True})["table"]
        slot = key % len(self.slots)
        store, place, turn, _ = self.slots[slot]
        return Place(store, slot, place, turn, key // len(self.slots))

    def by_keys(self, keys: Iterable[int], begins: Callable[..., Iterable[Any]]) -> list[Ended]:
        """Runs programs on the records of these keys, which one store has. `begins` is called with the place of each,
        and answers tuples of a program's name and its values; again where slots were moved meanwhile."""
        end = time.monotonic() + self.nodes.seconds
        wanted = [*keys]
        done: dict[int, Ended] = {}
        while True:
            places = [self.find(it) for it in wanted]
            if len({it.store for it in places}) != 1:
                raise Failure(f"the keys {wanted} are in {', '.join(sorted({it.store for it in places}))}")
            requests = [Run(str(it[0]), tuple(it[1:])) for it in begins(*places)]
            left = [at for at in range(len(requests)) if at not in done]
            ends = self.store(places[0].store).tried([requests[at] for at in left], None, guard_of(places))
            done.update((at, it) for at, it in zip(left, ends) if it is not None)
            if len(done) == len(requests):
                return [done[at] for at in range(len(requests))]
            if time.monotonic() > end:
                raise Moved(f"the slots of {wanted} are being moved")
            time.sleep(0.02)
            self.slots = []

    def close(self) -> None:
        """Ends the connections."""
        self.nodes.close()


def guard_of(places: Iterable[Place]) -> dict[str, Any]:
    """The slots that a request names."""
    return {"slots": [[it.slot, it.place, it.turn] for it in places]}
