#!/usr/bin/env python3
"""A cluster on this machine beside what else there is: `bench/cluster.py PROGRAM [--seconds S] [--rounds N]
[--only WORD]` prints all tables of docs/SPEED.md, "Over several machines", in some six minutes of a quiet machine. All
members sync on one disk. The parts, of which --only has one:

    latency     one commit at a time beside etcd's own put, in turns, and where its time goes
    throughput  commits a second with 1 and 3 members, 1, 2 and 4 stores, beside `run` on a file
    others      the same accounts in etcd's own transactions, and in PostgreSQL with a synchronous standby
    failover    how long a store has no primary after a kill, a stop and SIGTERM
    behind      how far nodes are behind under a load, and two seconds after

Of rows with rounds the best and the middle one are printed.
"""
from __future__ import annotations

import argparse
import contextlib
import json
import os
import pathlib
import random
import shutil
import signal
import statistics
import subprocess
import sys
import tempfile
import threading
import time
from typing import Any, Callable, Dict, Iterator, List, NamedTuple, Tuple

sys.dont_write_bytecode = True
TOP = pathlib.Path(__file__).resolve().parent.parent
sys.path.insert(0, str(TOP / "python"))
from romp801 import program  # noqa: E402
from romp801.cluster import engine as etcd  # noqa: E402
from romp801.cluster.client import Cluster, Unanswered  # noqa: E402
from romp801.cluster.keys import Keys  # noqa: E402
from romp801.request import Front, Run  # noqa: E402

import postgres  # noqa: E402

Row = Tuple[float, float, float]
"""How many a second, and the middle and the 99th of a hundred latencies in ms."""
ACCOUNTS = 16
KILLS, STOPS = 10, 3
"""Trials of kills and of SIGTERM, and of stops."""


class Shape(NamedTuple):
    """A cluster: members of etcd, stores, and the pages of each."""

    members: int
    stores: int = 1
    pages: int = 2


def rate_of(times: List[float], count: int, took: float) -> Row:
    """The row of calls that took so long, in seconds."""
    times = sorted(times)
    return count / took, 1000 * statistics.median(times), 1000 * times[int(0.99 * len(times))]


def timed(seconds: float, works: List[Callable[[], int]]) -> Row:
    """Calls works side by side, each again and again; what each call did is counted."""
    times: List[float] = []
    count, lock, stop = [0], threading.Lock(), time.monotonic() + seconds

    def go(work: Callable[[], int]) -> None:
        """One of them."""
        while time.monotonic() < stop:
            begun = time.monotonic()
            done = work()
            with lock:
                times.append(time.monotonic() - begun)
                count[0] += done

    threads = [threading.Thread(target=go, args=(it,)) for it in works]
    begun = time.monotonic()
    for it in threads:
        it.start()
    for it in threads:
        it.join()
    return rate_of(times, count[0], time.monotonic() - begun)


class House:
    """Members and three nodes."""

    def __init__(self, romp801: program.Program, shape: Shape, port: int) -> None:
        self.romp801, self.shape, self.port = romp801, shape, port
        self.folder = pathlib.Path(tempfile.mkdtemp(prefix="bench-", dir=os.environ.get("FOLDER")))
        self.words: Dict[str, List[str]] = {}
        self.running: Dict[str, subprocess.Popen[bytes]] = {}
        self.members = ",".join(f"http://127.0.0.1:{port + it}" for it in range(shape.members))
        self.engine = etcd.Engine(self.members, None, 5.0)
        self.stores = [f"s{it}" for it in range(shape.stores)]
        self.nodes = [f"127.0.0.1:{port + 20 + it}" for it in range(3)]
        self._start_members()
        self._make()
        self._start_nodes()
        for name in self.stores:
            self.client().store(name).run(("deposit", 1000000, 0))

    def _start_members(self) -> None:
        """Begins etcd."""
        peers = ",".join(f"e{it}=http://127.0.0.1:{self.port + 10 + it}" for it in range(self.shape.members))
        for it in range(self.shape.members):
            url, peer = f"http://127.0.0.1:{self.port + it}", f"http://127.0.0.1:{self.port + 10 + it}"
            options = {
                "name": f"e{it}",
                "data-dir": self.folder / f"e{it}",
                "listen-peer-urls": peer,
                "initial-advertise-peer-urls": peer,
                "listen-client-urls": url,
                "advertise-client-urls": url,
                "initial-cluster": peers,
                "log-level": "error",
            }
            self.start(f"e{it}", "etcd", *(word for key, value in options.items() for word in (f"--{key}", value)))
        self.engine.get(b"x", 60)

    def _make(self) -> None:
        """The stores, and the cluster."""
        for name in self.stores:
            words: List[str] = []
            left = self.shape.pages
            while left:
                words += [str(len(words) // 2 + 1), f"{min(128, left)}f"]
                left -= min(128, left)
            program.refused(self.romp801.call("new2", str(self.folder / name), "131072", *words), "new2")
        programs = ["--programs", TOP / "examples/four.job", "--program", self.romp801.path]
        made = [TOP / "tools/cluster", "make", "--engine", self.members, *programs]
        made += [f"{name}={self.folder / name}" for name in self.stores]
        subprocess.run([str(it) for it in made], check=True, stdout=subprocess.DEVNULL)

    def _start_nodes(self) -> None:
        """Begins the nodes."""
        for it, at in enumerate(self.nodes):
            where = ["--engine", self.members, "--folder", self.folder / f"n{it}", "--listen", at]
            which = ["--name", f"n{it}", "--program", self.romp801.path]
            self.start(f"n{it}", TOP / "tools/cluster", "node", *where, *which)

    def client(self, seconds: float = 120.0, patience: float = 20.0) -> Cluster:
        """A client."""
        return Cluster(",".join(self.nodes), None, seconds, patience)

    def start(self, name: str, *words: object) -> None:
        """Begins a process."""
        self.words[name] = [str(it) for it in words] or self.words[name]
        with open(self.folder / f"{name}.log", "ab") as said:
            self.running[name] = subprocess.Popen(
                self.words[name], stdout=said, stderr=said, stdin=subprocess.DEVNULL, start_new_session=True
            )

    def load(self, clients: int, per: int, seconds: float) -> Row:
        """Deposits, so many in a request, by so many clients for each store."""
        works: List[Callable[[], int]] = []
        for place in range(clients * len(self.stores)):
            store = self.client().store(self.stores[place % len(self.stores)])
            begins = [("deposit", 1, 256 * ((place + it) % ACCOUNTS)) for it in range(per)]
            works.append(lambda store=store, begins=begins: len(store.run(*begins)))  # type: ignore[misc]
        return timed(seconds, works)

    def puts(self, size: int, seconds: float) -> Row:
        """etcd's own puts, by one writer."""
        value = os.urandom(size)

        def put() -> int:
            """One."""
            self.engine.put(b"bench", value)
            return 1

        return timed(seconds, [put])

    def etcd_transfers(self, clients: int, seconds: float) -> Row:
        """Transfers in etcd itself: two reads, and a compare of both and two puts; again where another came
        between."""
        for it in range(ACCOUNTS):
            self.engine.put(b"account%d" % it, b"1000000")

        def worker(place: int) -> Callable[[], int]:
            """One client."""
            order = random.Random(place)

            def transfer() -> int:
                """One transfer."""
                one, other = (b"account%d" % it for it in order.sample(range(ACCOUNTS), 2))
                while True:
                    _, (first, second) = self.engine.look([], one, other)
                    assert first is not None and second is not None
                    compares = [etcd.is_changed(one, first.changed), etcd.is_changed(other, second.changed)]
                    amounts = [b"%d" % (int(first.value) - 1), b"%d" % (int(second.value) + 1)]
                    if self.engine.transaction(compares, [etcd.put(one, amounts[0]), etcd.put(other, amounts[1])]):
                        return 1

            return transfer

        return timed(seconds, [worker(it) for it in range(clients)])

    def status(self) -> List[Dict[str, Any]]:
        """What each node says of the first store."""
        client = self.client()
        try:
            return [client.status(at)["stores"]["s0"] for at in self.nodes]
        finally:
            client.close()

    def primary(self) -> str:
        """The name of the first store's primary."""
        item = None
        while item is None:
            item = self.engine.get(Keys("s0").primary, 20.0)
        return str(json.loads(item.value)["name"])

    def end(self) -> None:
        """Ends all."""
        for it in self.running.values():
            with contextlib.suppress(ProcessLookupError):
                os.killpg(it.pid, signal.SIGKILL)
            it.wait()
        shutil.rmtree(self.folder, ignore_errors=True)


@contextlib.contextmanager
def house_of(romp801: program.Program, shape: Shape, port: int) -> Iterator[House]:
    """A house, which is ended."""
    made = House(romp801, shape, port)
    try:
        yield made
    finally:
        made.end()


class Table:
    """Rows, each of some rounds."""

    def __init__(self) -> None:
        self.rows: Dict[str, List[Row]] = {}

    def take(self, what: str, row: Row) -> None:
        """One more round of a row."""
        self.rows.setdefault(what, []).append(row)

    def put(self) -> None:
        """Prints them, and forgets them."""
        print("| What | a second: best, middle | ms: best middle, middle middle, middle 99th |\n|---|---|---|")
        for what, them in self.rows.items():
            best, middle = max(it[0] for it in them), statistics.median(it[0] for it in them)
            low, mid, high = (
                min(it[1] for it in them),
                statistics.median(it[1] for it in them),
                statistics.median(it[2] for it in them),
            )
            print(f"| {what} | {best:,.0f}, {middle:,.0f} | {low:.1f}, {mid:.1f}, {high:.1f} |", flush=True)
        self.rows.clear()


def run_on_disk(romp801: program.Program, path: str, count: int) -> Row:
    """`run` of one job of so many on a file."""
    front = Front((TOP / "examples/four.job").read_text())
    job = front.job([Run("deposit", (1, 256 * (it % ACCOUNTS))) for it in range(count)])
    begun = time.monotonic()
    program.refused(romp801.call("run", path, given=job), "run")
    took = time.monotonic() - begun
    return count / took, 1000 * took, 1000 * took


def latency(romp801: program.Program, options: argparse.Namespace) -> None:
    """One commit at a time beside etcd's own put."""
    with house_of(romp801, Shape(3), options.port) as house:
        store = house.client().store("s0")
        times: Dict[str, List[float]] = {"put": [], "commit": [], "next": []}
        before: Dict[str, Any] = {}
        for turn in range(20 + 400):
            if turn == 20:
                before = next(it["serves"] for it in house.status() if "serves" in it)
            works: Dict[str, Callable[[], Any]] = {
                "put": lambda: house.engine.put(b"bench", os.urandom(300)),
                "commit": lambda: store.run(("deposit", 1, 0)),
                "next": lambda: store.run(("deposit", 1, 0)),
            }
            for name, work in works.items():
                begun = time.monotonic()
                work()
                if turn >= 20:
                    times[name].append(time.monotonic() - begun)
        after = next(it["serves"] for it in house.status() if "serves" in it)
        print("| One at a time, three members, a store of two pages | ms: tenth, middle, 99th of a hundred |\n|---|---|")
        rows = (("put", "etcd's own put of 300 bytes"), ("commit", "a commit"), ("next", "one right behind it"))
        for name, what in rows:
            _, middle, high = rate_of(times[name], 1, 1.0)
            tenth = 1000 * sorted(times[name])[len(times[name]) // 10]
            print(f"| {what} | {tenth:.1f}, {middle:.1f}, {high:.1f} |")
        jobs = after["jobs"] - before["jobs"]
        parts = [f"{it} {1000 * (after[it] - before[it]) / jobs:.1f}" for it in ("run", "ship", "put")]
        print(f"\nOf a commit, in ms on the average: {', '.join(parts)}.")


def throughput(romp801: program.Program, options: argparse.Namespace) -> None:
    """Commits a second."""
    table = Table()
    with tempfile.TemporaryDirectory(dir=os.environ.get("FOLDER")) as folder:
        alone = f"{folder}/alone"
        program.refused(romp801.call("new2", alone, "131072", "1", "1f", "2", "1f"), "new2")
        for _ in range(options.rounds):
            for count in (1, 16, 100, 400):
                table.take(f"`run` on the disk, a job of {count}", run_on_disk(romp801, alone, count))
    for place, shape in enumerate((Shape(1), Shape(3), Shape(3, 1, 1020), Shape(3, 2), Shape(3, 4))):
        loads = ((1, 1), (16, 1), (1, 16), (1, 100), (1, 400)) if shape.stores == 1 else ((2, 100),)
        with house_of(romp801, shape, options.port + 100 * place) as house:
            for _ in range(options.rounds):
                what = f"members {shape.members}, stores {shape.stores} of {shape.pages} pages"
                if shape.pages == 2 and shape.stores == 1:
                    table.take(f"{shape.members}: etcd's own put of 300 bytes", house.puts(300, options.seconds))
                for clients, per in loads:
                    row = house.load(clients, per, options.seconds)
                    table.take(f"{what}: {clients} clients a store, requests of {per}", row)
    table.put()


def others(romp801: program.Program, options: argparse.Namespace) -> None:
    """The same accounts elsewhere."""
    table = Table()
    with house_of(romp801, Shape(3), options.port) as house:
        for _ in range(options.rounds):
            for clients in (1, 16):
                row = house.etcd_transfers(clients, options.seconds)
                table.take(f"etcd, three members: transfers by its transactions, {clients} clients", row)
    programs = postgres.folder_of_programs()
    if programs is None:
        print("skipped: PostgreSQL: it isn't here")
    else:
        made = postgres.Postgres(programs, options.port + 50)
        try:
            for _ in range(options.rounds):
                for clients, per in ((1, 1), (16, 1), (1, 100), (4, 100)):
                    row = made.transfers(clients, per, options.seconds)
                    what = f"{clients} clients, {per} transfers in a transaction"
                    table.take(f"PostgreSQL, one synchronous standby: {what}", row)
        finally:
            made.end()
    table.put()


class Watch(threading.Thread):
    """One client that asks for one transaction after another, and notes when it was answered."""

    def __init__(self, house: House) -> None:
        super().__init__(daemon=True)
        self.house, self.over = house, threading.Event()
        self.answers = [time.monotonic()]

    def run(self) -> None:
        """Asks."""
        store = self.house.client(60.0, 1.0).store("s0")
        while not self.over.is_set():
            with contextlib.suppress(Unanswered):
                store.run(("deposit", 1, 0))
                self.answers.append(time.monotonic())

    def silence(self, moment: float) -> float:
        """How long there was no answer behind a moment, when there is one again."""
        while self.answers[-1] < moment + 0.5 or time.monotonic() < moment + 1:
            time.sleep(0.05)
        near = [it for it in self.answers if it > moment - 1]
        return max(b - a for a, b in zip(near, near[1:]))


def trial(house: House, watch: Watch, sent: int) -> float:
    """How long there is no answer where a signal is sent to the primary."""
    name = house.primary()
    at = time.monotonic()
    if sent == signal.SIGTERM:
        house.running[name].terminate()
    else:
        os.killpg(house.running[name].pid, sent)
    took = watch.silence(at)
    if sent == signal.SIGSTOP:
        os.killpg(house.running[name].pid, signal.SIGCONT)
    else:
        house.running[name].wait()
        house.start(name)
    end = time.monotonic() + 10
    while time.monotonic() < end:
        # (a node that has just begun has no stores yet)
        with contextlib.suppress(OSError, KeyError):
            numbers = [it["number"] for it in house.status()]
            if max(numbers) - min(numbers) < 100:
                break
        time.sleep(0.1)
    time.sleep(0.5)
    return took


def failover(romp801: program.Program, options: argparse.Namespace) -> None:
    """How long a store has no primary."""
    rows: Dict[str, List[float]] = {}
    with house_of(romp801, Shape(3), options.port) as house:
        watch = Watch(house)
        watch.start()
        time.sleep(2)
        kinds = (("killed", signal.SIGKILL, KILLS), ("ended by SIGTERM", signal.SIGTERM, KILLS))
        for what, sent, count in (*kinds, ("stopped", signal.SIGSTOP, STOPS)):
            for _ in range(count):
                rows.setdefault(what, []).append(trial(house, watch, sent))
        watch.over.set()
    print("| The primary, with a lease of 3 s | without an answer, s: least, middle, most | trials |\n|---|---|---|")
    for what, them in rows.items():
        print(f"| {what} | {min(them):.2f}, {statistics.median(them):.2f}, {max(them):.2f} | {len(them)} |")


def behind(romp801: program.Program, options: argparse.Namespace) -> None:
    """How far nodes are behind, under a load and two seconds after."""
    found: List[int] = []
    stop = threading.Event()
    with house_of(romp801, Shape(3), options.port) as house:

        def look() -> None:
            """Looks now and then."""
            while not stop.wait(0.3):
                numbers = [it["number"] for it in house.status()]
                found.append(max(numbers) - min(numbers))

        watch = threading.Thread(target=look, daemon=True)
        watch.start()
        row = house.load(4, 100, 10.0)
        stop.set()
        watch.join()
        time.sleep(2)
        numbers = [it["number"] for it in house.status()]
    print(f"{row[0]:,.0f} commits a second by four clients with requests of 100.")
    print(f"Nodes behind under that load: middle {statistics.median(found):.0f}, most {max(found)} commits;", end=" ")
    print(f"two seconds after: {max(numbers) - min(numbers)} of {max(numbers):,}.")


WORKS = {
    "latency": latency,
    "throughput": throughput,
    "others": others,
    "failover": failover,
    "behind": behind,
}


def main() -> int:
    parser = argparse.ArgumentParser(description=__doc__, formatter_class=argparse.RawDescriptionHelpFormatter)
    parser.add_argument("program", metavar="PROGRAM")
    parser.add_argument("--seconds", type=float, default=2.0, help="of a row")
    parser.add_argument("--rounds", type=int, default=3, help="of a row")
    parser.add_argument("--port", type=int, default=27000, help="the first of 500")
    parser.add_argument("--only", choices=[*WORKS])
    options = parser.parse_args()
    romp801 = program.Program(os.path.abspath(options.program))
    begun = time.monotonic()
    for name, work in WORKS.items():
        if options.only in (None, name):
            print(f"\n{name}, at a load of {os.getloadavg()[0]:.1f}\n", flush=True)
            work(romp801, options)
    print(f"\n{time.monotonic() - begun:.0f} s in all, {os.cpu_count()} processors, load {os.getloadavg()[0]:.1f}")
    return 0


if __name__ == "__main__":
    sys.exit(main())
