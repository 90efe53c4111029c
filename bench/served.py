"""Transfers a second of a served store beside SQLite, from as many Python clients, each a process of its own, on one disk
in one run: `python3 bench/served.py PROGRAM [SCRATCH] [SECONDS]`. Prints the lines of docs/SPEED.md, "A served store".
SCRATCH is a folder on the disk to measure, and SECONDS how long each is measured, in each of three rounds."""
import multiprocessing
import os
import random
import shutil
import sqlite3
import subprocess
import sys
import tempfile
import time

sys.dont_write_bytecode = True
TOP = os.path.dirname(os.path.dirname(os.path.realpath(__file__)))
sys.path.insert(0, os.path.join(TOP, "python"))
from romp801 import Failure, Records, connect  # noqa: E402

ACCOUNTS = Records.of("account", "balance u4", segment=1, size=256, count=64)
ROUNDS = 3
BATCH = 500
PROGRAMS = """frames 32
program move
.window 1, 1, rw
cau r6, r0, 0x1000
cas r7, r6, r4
cas r6, r6, r3
l r8, 0(r6)
s r8, r2
jb lt, no
st r8, 0(r6)
l r9, 0(r7)
a r9, r2
st r9, 0(r7)
svc 0
no: svc 2
end
"""


def two(order):
    """Two accounts."""
    return order.sample(range(64), 2)


class Served:
    """Transfers by a program of a served store."""

    def __init__(self, place):
        self.store = connect("socket")

    def move(self, order):
        one, other = two(order)
        self.store.run(("move", 1, 256 * one, 256 * other))

    def batch(self, order):
        self.store.run(*(("move", 1, 256 * one, 256 * other) for one, other in (two(order) for _ in range(BATCH))))


class Python(Served):
    """Transfers by transactions of Python."""

    def move(self, order):
        one, other = two(order)

        def transfer(t):
            t.fetch(ACCOUNTS[one], ACCOUNTS[other])
            t[ACCOUNTS[one]].balance -= 1
            t[ACCOUNTS[other]].balance += 1

        self.store.update(transfer)


class Sqlite:
    """Transfers of SQLite, in WAL with synchronous=FULL."""

    def __init__(self, place):
        self.base = sqlite3.connect("base", timeout=60, isolation_level=None)
        self.base.execute("pragma synchronous=full")

    def move(self, order):
        one, other = two(order)
        self.base.execute("begin immediate")
        self.base.execute("update account set balance = balance - 1 where id = ?", (one,))
        self.base.execute("update account set balance = balance + 1 where id = ?", (other,))
        self.base.execute("commit")

    def batch(self, order):
        for _ in range(BATCH):
            self.move(order)


def client(kind, how, place, start, seconds, answers):
    """One client: how long each of its calls took, in seconds."""
    order, times = random.Random(place), []
    it = kind(place)
    start.wait()
    until = time.monotonic() + seconds
    while time.monotonic() < until:
        begun = time.monotonic()
        getattr(it, how)(order)
        times.append(time.monotonic() - begun)
    answers.put(times)


def measured(kind, how, clients, seconds):
    """Transfers a second, and all times of calls."""
    start, answers = multiprocessing.Barrier(clients + 1), multiprocessing.Queue()
    all_of = [multiprocessing.Process(target=client, args=(kind, how, it, start, seconds, answers)) for it in range(clients)]
    for it in all_of:
        it.start()
    start.wait()
    begun = time.monotonic()
    times = [it for _ in all_of for it in answers.get()]
    spent = time.monotonic() - begun
    for it in all_of:
        it.join()
    return len(times) * (BATCH if how == "batch" else 1) / spent, sorted(times)


def main():
    program = os.path.abspath(sys.argv[1])
    scratch = tempfile.mkdtemp(dir=sys.argv[2] if len(sys.argv) > 2 else None)
    seconds = float(sys.argv[3]) if len(sys.argv) > 3 else 5
    os.chdir(scratch)
    with open("programs", "w", encoding="ascii") as file:
        file.write(PROGRAMS)
    subprocess.run([program, "new2", "store", "131072", "1", "4f"], check=True, stdout=subprocess.DEVNULL)
    with connect("store", romp801=program) as store, store.transaction() as t:
        for it in ACCOUNTS:
            t[it].balance = 1000000
    base = sqlite3.connect("base")
    base.execute("pragma journal_mode=wal")
    base.execute("create table account (id integer primary key, balance integer not null)")
    base.executemany("insert into account values (?, 1000000)", ((it,) for it in range(64)))
    base.commit()
    words = [os.path.join(TOP, "tools/serve"), "store", "programs", "socket", "--program", program]
    server = subprocess.Popen(words, stderr=subprocess.DEVNULL)
    while True:
        try:
            connect("socket").close()
            break
        except Failure:
            time.sleep(0.1)
    print("| Clients | served: transfers a second | p50, p99 in ms | by Python | p50, p99 | SQLite | p50, p99 | served to SQLite |")
    print("|---|---|---|---|---|---|---|---|")
    for clients, how in ((1, "move"), (16, "move"), (64, "move"), (1, "batch")):
        found = {}
        for _ in range(ROUNDS):
            for kind in (Served, Python, Sqlite):
                if how == "move" or kind is not Python:
                    found.setdefault(kind, []).append(measured(kind, how, clients, seconds))
        best = {kind: max(it) for kind, it in found.items()}
        cells = [f"{clients}" if how == "move" else f"1, {BATCH} at once"]
        for kind in (Served, Python, Sqlite):
            if kind in best:
                rate, times = best[kind]
                p50, p99 = (1000 * times[min(len(times) - 1, len(times) * part // 100)] for part in (50, 99))
                cells += [f"{rate:.0f}", f"{p50:.1f}, {p99:.1f}" if how == "move" else "-"]
            else:
                cells += ["-", "-"]
        cells.append(f"{best[Served][0] / best[Sqlite][0]:.2f}")
        print("| " + " | ".join(cells) + " |", flush=True)
    server.terminate()
    server.wait()
    shutil.rmtree(scratch)


if __name__ == "__main__":
    main()
