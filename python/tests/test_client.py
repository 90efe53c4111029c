"""Transactions and programs run from Python, over stores of both versions."""
from __future__ import annotations

import random
import unittest
from typing import Any, Callable

from romp801 import Conflict, Failure, Records, Transaction, connect, records
from romp801.report import Check, Commit, Journal, Left
from romp801.request import Apply, Front, Run, Word, written_out
from tests.stores import ACCOUNTS, Case


class Transactions(Case):
    """Reads and writes by Python."""

    def stores(self) -> list[Any]:
        """A store of each version."""
        return [connect(it, self.programs) for it in (self.first, self.second)]

    def test_values(self) -> None:
        """Fields of each kind are written and read, and the bytes beside them stay."""
        for store in self.stores():
            with store.transaction() as t:
                t.write(1, 256, bytes(range(1, 129)))
            with store.transaction() as t:
                row = t[ACCOUNTS[0]]
                self.assertEqual(row.balance, 0x01020304)
                row.flag = -3
                row.moves[1] += 5
                row.owner = "å"
                self.assertEqual((row.flag, list(row.moves), row.owner), (-3, [0x506, 0x70D, 0x90A, 0xB0C], "å"))
            data = store.source().bytes_at(1, 256, 128)
            wanted = bytearray(range(1, 129))
            wanted[6:8], wanted[12:13], wanted[14:32] = b"\x07\x0d", b"\xfd", "å".encode().ljust(18, b"\0")
            self.assertEqual(data, wanted)
            self.assertEqual(store.number(), 2)

    def test_random(self) -> None:
        """Random bytes read and written, against a model."""
        order = random.Random(801)
        for store in self.stores():
            model = bytearray(store.source().segments[1])
            for _ in range(40):
                with store.transaction() as t:
                    for _ in range(order.randrange(1, 9)):
                        at, count = order.randrange(600), order.randrange(1, 40)
                        if order.random() < 0.5:
                            self.assertEqual(t.read(1, at, count), model[at : at + count])
                        else:
                            model[at : at + count] = data = order.randbytes(count)
                            t.write(1, at, data)
            self.assertEqual(store.source().content[1], model)

    def test_conflicts(self) -> None:
        """What another changed ends a block with Conflict, and nothing is done; what wasn't read may have changed."""
        for store in self.stores():
            other = connect(store.path, self.programs)
            with self.assertRaises(Conflict):
                with store.transaction() as t:
                    t[ACCOUNTS[1]].balance += 1
                    other.run(("add", 256 + 128, 7))
            self.assertEqual(store.values(ACCOUNTS[1])["balance"], 7)
            with store.transaction() as t:
                t[ACCOUNTS[1]].flag = t[ACCOUNTS[1]].moves[0]
                other.run(("add", 256 + 128, 7))
            self.assertEqual(store.values(ACCOUNTS[1])["balance"], 14)
            self.assertEqual(store.number(), 3)

    def test_update(self) -> None:
        """A function is called until it commits."""
        for store in self.stores():
            other, calls = connect(store.path, self.programs), []

            def slow(t: Transaction) -> int:
                """Reads, is overtaken twice, and writes."""
                calls.append(1)
                row = t[ACCOUNTS[2]]
                found = int(row.balance)
                if len(calls) < 3:
                    other.run(("add", 512, 1))
                row.balance = found + 1000
                return found

            self.assertEqual((store.update(slow), len(calls)), (2, 3))
            self.assertEqual(store.values(ACCOUNTS[2])["balance"], 1002)
            with self.assertRaises(Conflict):
                calls.clear()
                store.update(slow, attempts=2)

    def test_an_error_in_a_block(self) -> None:
        """A block that raises does nothing, and one that only reads commits nothing."""
        store = self.stores()[0]
        with self.assertRaises(ZeroDivisionError):
            with store.transaction() as t:
                t[ACCOUNTS[0]].balance = 1 // 0
        with store.transaction() as t:
            self.assertEqual(t[ACCOUNTS[0]].balance, 0)
        self.assertEqual(store.number(), 0)

    def test_programs(self) -> None:
        """Programs end as their lines say; what doesn't end keeps nobody from the next."""
        for store in self.stores():
            ends = store.run(("add", 256, 5), ("no",), ("spin", 1), ("add", 256, 6), ("wide", 64))
            self.assertEqual([type(it) for it in ends], [Commit, Check, Left, Commit, Journal])
            self.assertEqual(store.values(ACCOUNTS[0])["balance"], 11)
            ends = store.run(*(("add", 256, 1) for _ in range(1100)))
            self.assertEqual({it.number for it in ends}, set(range(3, 1103)))

    def test_wrong_uses(self) -> None:
        """What can't be is told before anything is run."""
        store = self.stores()[0]
        with store.transaction() as t:
            cases: list[tuple[Callable[[], object], str]] = [
                (lambda: t[ACCOUNTS], "there are 32 of account"),
                (lambda: t[ACCOUNTS[32]], "there is no account[32]"),
                (lambda: t[ACCOUNTS[0]].ballance, "has no field ballance"),
                (lambda: setattr(t[ACCOUNTS[0]], "balance", -1), "can't be -1"),
                (lambda: t[ACCOUNTS[0]].moves[4], "there is no moves[4]"),
                (lambda: setattr(t[ACCOUNTS[0]], "moves", [1]), "it has 4 numbers"),
                (lambda: t.read(3, 0, 4), "segment 3 has no 4 bytes at 0: it isn't there"),
                (lambda: t.write(7, 2047, b"ab"), "it has 2048"),
                (lambda: t[Records.of("far", "a u4", segment=7, size=4096)], "ends at 4096"),
            ]
            for wrong, why in cases:
                with self.assertRaises(Failure, msg=why) as raised:
                    wrong()
                self.assertIn(why, str(raised.exception))
        for begin, why in (
            (("ad", 1), "there is no program ad: there are add, no, spin, wide"),
            (("add", 1, 2, 3, 4, 5), "at most four"),
            (("add", -1), "is no value"),
            (("add", "1"), "is no value"),
        ):
            with self.assertRaises(Failure) as raised:
                store.run(begin)
            self.assertIn(why, str(raised.exception))
        with self.assertRaises(Failure) as raised:
            store.update(lambda t: [t.write(1, at, b"x") for at in range(0, 8192, 128)])
        self.assertIn("a commit of this store has at most 61", str(raised.exception))
        with self.assertRaises(Failure) as raised:
            store.update(lambda t: t.write(1, 0, 8000 * b"x"))
        self.assertIn("at most some 1357 words", str(raised.exception))
        nosuch = self.path("nosuch")
        for path, why in ((nosuch, "No such file"), (self.programs, "is no store"), (self.folder, "folder")):
            with self.assertRaises(Failure) as raised:
                connect(path)
            self.assertIn(why, str(raised.exception))
        self.assertEqual(store.number(), 0)


class Requests(unittest.TestCase):
    """Programs and jobs that are made."""

    def test_room(self) -> None:
        """A job has as many requests as it has room for, and programs of names that the front lacks."""
        front = Front("frames 2\nprogram t1\nend\n")
        word = Word(1, 0, 0xFFFFFFFF, 1)
        self.assertEqual(front.batch([Run("t1")] * 1000), 480)
        self.assertEqual(front.batch([Apply((), (word,))] * 1000), 63)
        self.assertEqual(front.batch([Apply((word,) * 1300, ())] * 1000), 13)
        self.assertIn(b"program t1_\n", front.job([Run("t1"), Apply((), (word,))]))
        with self.assertRaises(Failure):
            Front("frames 1\n")

    def test_segments(self) -> None:
        """A transaction has at most fifteen segments, and reads some of them alone."""
        words = tuple(Word(it, 0, 0xFFFFFFFF, 1) for it in range(1, 17))
        self.assertIn(".window 2, 2, r", written_out("t", Apply(words[:15], words[:1])).body)
        with self.assertRaises(Failure):
            written_out("t", Apply(words, ()))

    def test_descriptions_in_code(self) -> None:
        """A description in code is one of a file."""
        text = "records account segment 1 from 256 size 128 count 32\n balance u4\n moves u2 4\n flag s1\n"
        text += " skip 1\n owner text 18\n"
        self.assertEqual(records.read(text)["account"], ACCOUNTS)


if __name__ == "__main__":
    unittest.main()
