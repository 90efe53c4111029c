#!/usr/bin/env python3
"""A bank with twelve clients: a store is made and served, each client moves money by transactions of Python, and at the
end the sum is as it was, and each job that the server ran is audited.
"""
from __future__ import annotations

import os
import pathlib
import random
import subprocess
import sys
import tempfile
import threading
import time

TOP = pathlib.Path(__file__).resolve().parent.parent
sys.dont_write_bytecode = True
sys.path.insert(0, str(TOP / "python"))
from romp801 import Failure, Records, Transaction, connect, program  # noqa: E402
from romp801.client import Store  # noqa: E402

CLIENTS, TRANSFERS, FUNDS = 12, 2, 1000
ACCOUNTS = Records.of("account", "balance u4, moves u4, owner text 16", segment=1, size=256, count=32)


def transfer(t: Transaction, giver: int, taker: int, amount: int) -> bool:
    """Moves an amount from an account to another, or nothing where there is too little."""
    if t[ACCOUNTS[giver]].balance < amount:
        return False
    t[ACCOUNTS[giver]].balance -= amount
    t[ACCOUNTS[taker]].balance += amount
    t[ACCOUNTS[giver]].moves += 1
    return True


def client(socket: str, place: int) -> None:
    """Some transfers; the last is asked for twice under its name, and done once."""
    order = random.Random(place)
    with connect(socket) as store:
        for _ in range(TRANSFERS - 1):
            giver, taker = order.sample(range(32), 2)
            store.update(lambda t: transfer(t, giver, taker, 7))
        for _ in range(2):
            store.once(f"fee of {place}", lambda t: transfer(t, place, 31, 1))


def opened(path: str, romp801: str) -> None:
    """A new store, with its accounts funded."""
    subprocess.run([romp801, "new2", path, "65536", "1", "2f"], check=True, stdout=subprocess.DEVNULL)
    with connect(path, romp801=romp801) as store, store.transaction() as t:
        for it in ACCOUNTS:
            t[it].balance = FUNDS
            t[it].owner = f"owner {it.index}"


def connected(socket: str) -> Store:
    """The store, as soon as the server answers."""
    while True:
        try:
            return connect(socket)
        except Failure:
            time.sleep(0.1)


def audited(romp801: program.Program, kept: pathlib.Path, store: pathlib.Path) -> bool:
    """Whether each job that was kept is the run of its programs between its store and the next one."""
    jobs = sorted(kept.iterdir())
    closings = [it / "opening" for it in jobs[1:]] + [store]
    for it, closing in zip(jobs, closings):
        job, report, opening = ((it / part).read_bytes() for part in ("job", "report", "opening"))
        done = romp801.call("audit", given=program.bundle(job, report, opening, closing.read_bytes()))
        if not done.stdout.startswith(b"audit yes"):
            return False
    return True


def main() -> None:
    """The bank's day."""
    romp801 = program.Program.find()
    with tempfile.TemporaryDirectory() as folder:
        store, socket, kept = (os.path.join(folder, it) for it in ("store", "socket", "kept"))
        opened(store, romp801.path)
        words = [str(TOP / "tools/serve"), "--keep", kept, store, "-", socket]
        with subprocess.Popen(words, stderr=subprocess.DEVNULL) as server:
            connected(socket).close()
            clients = [threading.Thread(target=client, args=(socket, it)) for it in range(CLIENTS)]
            for it in clients:
                it.start()
            for it in clients:
                it.join()
            with connected(socket) as bank:
                accounts = [bank.values(it) for it in ACCOUNTS]
            server.terminate()
        print(f"{CLIENTS} clients: {sum(int(str(it['moves'])) for it in accounts)} transfers")
        print(f"the sum is {sum(int(str(it['balance'])) for it in accounts)}")
        print(f"each job audited: {'yes' if audited(romp801, pathlib.Path(kept), pathlib.Path(store)) else 'no'}")


main()
