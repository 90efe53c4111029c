"""Judges what the storm left: the history that was read of the engine, what clients were told, and the nodes' files.

It reads the engine's keys by itself, and takes from the package the bytes of a store, and how a ship text is followed
and audited by the program.
"""
from __future__ import annotations

import bisect
import collections
import hashlib
import json
import threading
import time
import zlib
from typing import Any, Callable, Dict, Iterable, List, NamedTuple, Optional, Set, Tuple

from romp801 import Fault, Store, program
from romp801.cluster.audit import audit
from romp801.cluster.engine import Engine, EngineFault, end_of
from romp801.cluster.history import Entry
from romp801.report import Check, Commit
from romp801.request import Apply, Front, Request, Run
from storm.house import House
from storm.load import ACCOUNT, Load, Noted

PAGE = 4096
LINE = 256
State = Tuple[bytes, ...]
"""The lines of a store."""


class Row(NamedTuple):
    """A commit of the history: whose, what it asked, its number, and what it printed."""

    who: Tuple[Any, ...]
    asked: Any
    number: int
    out: str


class Recorder(threading.Thread):
    """Reads the engine's history as it comes."""

    def __init__(self, members: str, stores: List[str]) -> None:
        super().__init__(daemon=True)
        self.engine, self.stores = Engine(members, None, 2.0), stores
        self.raw: Dict[str, List[bytes]] = {it: [] for it in stores}
        self.at = {it: 0 for it in stores}
        self.faults: List[str] = []
        self.ends = threading.Event()

    def run(self) -> None:
        """Reads, until it is told to end and there is nothing more."""
        while True:
            is_last, some = self.ends.is_set(), False
            for store in self.stores:
                try:
                    some = self._some(store) or some
                except EngineFault:
                    some = True
            if is_last and not some:
                return
            time.sleep(0.0 if some else 0.1)

    def wait_for_head(self, seconds: float) -> None:
        """Waits until all is read that the engine has now."""
        end = time.monotonic() + seconds
        for store in self.stores:
            head: Optional[bytes] = None
            while time.monotonic() < end and (head is None or int(head.split()[0]) > self.at[store]):
                try:
                    item = self.engine.get(f"/romp801/s/{store}/head".encode(), 2.0)
                    head = item.value if item else None
                except EngineFault:
                    pass
                time.sleep(0.05)

    def _some(self, store: str) -> bool:
        """Some entries of a store."""
        logs = f"/romp801/s/{store}/log/".encode()
        items = self.engine.range(logs + b"%020d" % (self.at[store] + 1), end_of(logs), 16)
        for it in items:
            raw = json.loads(zlib.decompress(it.value))
            if raw["first"] != self.at[store]:
                self.faults.append(f"history: {store} has {raw['first']} to {raw['last']} behind {self.at[store]}")
            self.at[store] = raw["last"]
            self.raw[store].append(it.value)
        return bool(items)


class Judge:
    """All of it."""

    def __init__(
        self, house: House, load: Load, recorder: Recorder, first: Dict[str, bytes], programs: Dict[str, str]
    ) -> None:
        self.house, self.load, self.recorder, self.first = house, load, recorder, first
        self.programs = {key: Front(text) for key, text in programs.items()}
        self.faults: List[str] = []
        self.said: List[str] = []
        self.yes = 0
        self.lasts: Dict[str, State] = {}

    def fault(self, *words: object) -> None:
        """Something isn't so."""
        self.faults.append(" ".join(map(str, words)))

    def work(self, stores: List[str], slots: Optional[List[Any]]) -> None:
        """Judges each store, and the money; in the middle of a storm, where there are no slots, neither the money nor
        the nodes' files, which are behind."""
        noted = collections.defaultdict(list)
        for it in self.load.noted:
            noted[it.store].append(it)
        for store in stores:
            rows, states = self._history(store)
            if slots is not None:
                self._nodes(store, states)
            self._once(store, rows, noted[store])
            self._times(store, noted[store], states)
            self.lasts[store] = states[-1]
            self._counters(store, states[-1])
        if slots is not None:
            self._money(stores, slots)

    # the history

    def _history(self, store: str) -> Tuple[List[Row], List[State]]:
        """The commits of a store, and what it stands for at each number."""
        image = self.first[store]
        rows: List[Row] = []
        home = b"".join(Store(image).content().values())
        states: List[State] = [tuple(home[at : at + LINE] for at in range(0, len(home), LINE))]
        total = hashlib.sha256(image).hexdigest()
        for raw in (json.loads(zlib.decompress(it)) for it in self.recorder.raw[store]):
            if raw["first"] != len(states) - 1:
                self.fault("history:", store, "goes on from", raw["first"], "behind", len(states) - 1)
            total = hashlib.sha256(f"{total}\n{raw['text']}".encode()).hexdigest()
            if total != raw["sum"]:
                self.fault("history:", store, "has another sum at", raw["last"])
            rows += [Row(tuple(who), asked, number, out) for who, asked, number, _, out in raw["done"]]
            if [it[2] for it in raw["done"]] != [*range(raw["first"] + 1, raw["last"] + 1)]:
                self.fault(
                    "history:", store, "an entry doesn't tell of each of its numbers", raw["first"], raw["last"]
                )
            self._follow(raw["text"], states)
        self._audit(store)
        return rows, states

    @staticmethod
    def _follow(text: str, states: List[State]) -> None:
        """The states that a ship text leads to."""
        lines: List[bytes] = []
        for line in text.split("\n")[1:-2]:
            kind, number, more = line.split()
            if kind == "record":
                if lines:
                    states.append(tuple(lines))
                lines = [*(states[-1])]
            else:
                lines[int(number)] = bytes.fromhex(more)
        if lines:
            states.append(tuple(lines))

    def _nodes(self, store: str, states: List[State]) -> None:
        """Each node's file stands for the history's end."""
        for it in (1, 2, 3):
            path = self.house.node_file(it, store)
            try:
                held = Store(path.read_bytes())
                if held.number != len(states) - 1 or b"".join(held.content().values()) != b"".join(states[-1]):
                    self.fault("nodes:", f"n{it}", store, "is at", held.number, "and the history at", len(states) - 1)
            except (OSError, Fault) as why:
                self.fault("nodes:", f"n{it}", store, why)
            others = [*path.parent.glob(f"{store}.other-*")]
            self.said += [f"n{it} set {other.name} aside" for other in others]

    def _audit(self, store: str) -> None:
        """`romp801 audit` of the whole history."""
        entries = [Entry.of(it) for it in self.recorder.raw[store]]
        found = audit(
            program.Program(self.house.program), lambda it: self.programs[it], self.first[store], entries, None
        )
        self.yes += found.yes
        if found.no:
            self.fault("audit:", store, found.no)
        self.said.append(
            f"{store}: audit yes of {found.yes} commits in {len(entries)} entries, by {found.terms} terms"
        )

    # what was told

    def _once(self, store: str, rows: List[Row], noted: List[Noted]) -> None:
        """Each acknowledged commit is in the history once, with its number and bytes; nothing else is in it but what
        nobody was told of."""
        held: Dict[Tuple[Any, ...], Row] = {}
        key: Tuple[Any, ...]
        for row in rows:
            key = (row.who[1], row.who[3])
            if key in held:
                self.fault(
                    "once:", store, key, row.asked, "is in the history twice:", held[key].number, "and", row.number
                )
            held[key] = row
        known: Set[Tuple[Any, ...]] = set()
        unknown: Set[Tuple[Any, ...]] = set()
        told = 0
        for it in noted:
            key = (it.who[1], it.who[3])
            (unknown if it.end is None else known).add(key)
            mine = held.get(key)
            if isinstance(it.end, Commit):
                told += 1
                if (
                    mine is None
                    or (mine.number, mine.out) != (it.end.number, it.end.out.hex())
                    or mine.asked != _asked(it.asked)
                ):
                    self.fault("once:", store, key, it.asked, "was told", it.end, "and the history has", mine)
            elif it.end is not None and mine is not None:
                self.fault("once:", store, key, it.asked, "was told", it.end, "and the history has", mine)
        for key in held:
            if key not in known and key not in unknown:
                self.fault("once:", store, key, "is in the history, and nobody was told")
        counts = dict(collections.Counter(it.end.word if it.end else "late" for it in noted))
        self.said.append(f"{store}: {told} acknowledged commits, {len(rows)} in the history; told: {counts}")

    def _times(self, store: str, noted: List[Noted], states: List[State]) -> None:
        """Real time: what was told before another was begun has the lower number; what gave up had a cause, and what
        was shown was so, at some number between."""
        commits = [
            (it.begun, it.told, it.end.number)
            for it in noted
            if isinstance(it.end, Commit) and not it.who[1].startswith("once-")
        ]
        after, before = _told_before(commits), _begun_behind(commits, len(states))
        for it in noted:
            first, last = after(it.begun), min(before(it.told), len(states)) - 1
            if isinstance(it.end, Commit):
                if it.end.number <= first and not it.who[1].startswith("once-"):
                    self.fault("order:", store, it.who, "is", it.end.number, "and", first, "was told before it began")
            elif isinstance(it.end, Check) and it.end.code == 8:
                if not any(_gives_up(states[at], it.asked) for at in range(first, last + 1)):
                    self.fault("gave up:", store, it.asked, "had no cause from", first, "to", last)
            elif it.end is not None:
                self.fault("told:", store, it.asked, it.end)
        for shown in self.load.shown:
            if shown.store != store:
                continue
            first, last = after(shown.begun), before(shown.told)
            segment, offset, count = shown.range
            if not first <= shown.number < last:
                self.fault(
                    "shown:", store, "at", shown.number, "where", first, "was told before, and", last, "begun behind"
                )
            if shown.number >= len(states) or _bytes(states[shown.number], segment, offset, count) != shown.data:
                self.fault("shown:", store, segment, offset, "has other bytes at", shown.number)

    def _counters(self, store: str, last: State) -> None:
        """Each counter has what was counted."""
        unknown = sum(it.end is None for it in self.load.noted if it.store == store)
        for at in range(4):
            value = int.from_bytes(_bytes(last, 3, 2048 + 256 * at, 4), "big")
            counted = len(self.load.counted.get((store, at), []))
            if not counted <= value <= counted + unknown:
                self.fault("counters:", store, at, "is", value, "and was counted", counted)

    def _money(self, stores: List[str], slots: List[Any]) -> None:
        """What was paid in is in the accounts; all outboxes are empty."""
        paid = 0
        for store in stores:
            for raw in self.recorder.raw[store]:
                done = json.loads(zlib.decompress(raw))["done"]
                paid += sum(asked["run"][1] for _, asked, *_ in done if asked.get("run", [""])[0] == "deposit")
            if _word(self.lasts[store], 2, 0) != _word(self.lasts[store], 2, 256):
                self.fault("money:", store, "has an outbox that wasn't drained")
        rest = sum(_word(self.lasts[store], 1, place * ACCOUNT) for store, place, *_ in slots)
        rest += sum(_word(self.lasts[store], 1, 15 * ACCOUNT) for store in stores)
        if paid != rest:
            self.fault(f"money: {paid} paid in, {rest} in the accounts")
        self.said.append(f"money: {paid} paid in, {rest} in the accounts")


def _asked(it: Request) -> Any:
    """A request as the history has it."""
    if isinstance(it, Run):
        return {"run": [it.name, *it.values]}
    return json.loads(json.dumps({"compare": it.compare, "write": it.write}))


def _told_before(commits: List[Tuple[float, float, int]]) -> Callable[[float], int]:
    """The highest number that was told before a moment."""
    told = sorted((it[1], it[2]) for it in commits)
    times, best = [it[0] for it in told], [0]
    for _, number in told:
        best.append(max(best[-1], number))
    return lambda moment: best[bisect.bisect_left(times, moment)]


def _begun_behind(commits: List[Tuple[float, float, int]], most: int) -> Callable[[float], int]:
    """The lowest number that was begun behind a moment."""
    begun = sorted((it[0], it[2]) for it in commits)
    times, least = [it[0] for it in begun], [most]
    for _, number in reversed(begun):
        least.append(min(least[-1], number))
    least.reverse()
    return lambda moment: least[bisect.bisect_right(times, moment)]


def _bytes(state: State, segment: int, offset: int, count: int) -> bytes:
    """Bytes of a state, whose segments have a page each."""
    at = (segment - 1) * PAGE + offset
    whole = b"".join(state[at // LINE : (at + count + LINE - 1) // LINE])
    return whole[at % LINE : at % LINE + count]


def _word(state: State, segment: int, offset: int) -> int:
    """A word of a state."""
    return int.from_bytes(_bytes(state, segment, offset, 4), "big")


def _gives_up(state: State, it: Request) -> bool:
    """Whether a request gives up on this state."""
    if isinstance(it, Apply):
        return any(_word(state, word.segment, word.offset) & word.mask != word.value for word in it.compare)
    values = it.values
    if it.name == "move":
        return _word(state, 1, values[1]) < values[0]
    if it.name == "send":
        return _word(state, 1, values[1]) < values[0] or _word(state, 2, 0) + 1 - _word(state, 2, 256) > 64
    if it.name == "receive":
        return _word(state, 2, 2048 + 256 * values[1] + 4 * (values[0] & 63)) >= values[0]
    return it.name == "sent" and _word(state, 2, 256) >= values[0]


def longest_silence(times: Iterable[float]) -> float:
    """The longest time without an answer."""
    found = sorted(times)
    return max((b - a for a, b in zip(found, found[1:])), default=0.0)


def operations(load: Load, path: str) -> Optional[int]:
    """Writes what was done on registers for another judge; answers how many there are."""
    with open(path, "w", encoding="ascii") as file:
        for it in load.operations:
            if it.kind == "read" and it.result is None:
                continue
            file.write(json.dumps(it._asdict()) + "\n")
    return len(load.operations)
