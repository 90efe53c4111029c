"""The parts of a cluster that want no engine: the table of who was answered, the history, the slots, and who is let
in."""
from __future__ import annotations

import subprocess
import unittest
from typing import Any, Dict, List, Optional
from unittest import mock

from romp801 import Failure, Store, files
from romp801.cluster import held as held_module
from romp801.cluster import table
from romp801.cluster.held import Content, Held, Journal
from romp801.cluster.history import Done, Entry, link, merged
from romp801.cluster.keys import Config, Slot
from romp801.cluster.safety import Safety, address
from romp801.cluster.setup import named
from romp801.cluster.table import Late, Old, Seen, Table, Who
from romp801.report import Check, Commit
from romp801.job import Checkpoint
from romp801.request import Apply, Front, Request, Run, Word, message_of

from tests.engines import of
from tests.stores import PROGRAMS, Case


def who(session: str, place: int, first: int = 0, since: int = 0) -> Who:
    """A request's."""
    return Who(since, session, first, place)


def commit(number: int) -> Commit:
    """A commit."""
    return Commit(1, number, 5, b"")


class Tables(unittest.TestCase):
    """Nothing is done twice, and nobody is told wrong."""

    def setUp(self) -> None:
        """Few are remembered."""
        self.addCleanup(setattr, table, "SESSIONS", table.SESSIONS)
        self.addCleanup(setattr, table, "KEPT", table.KEPT)

    def test_found(self) -> None:
        """What was done is found, and what was answered is old."""
        made = Table()
        made.take(who("a", 0), commit(1), 1)
        self.assertEqual(made.find(who("a", 0)), commit(1))
        self.assertIsNone(made.find(who("a", 1)))
        made.take(who("a", 3, 2), commit(2), 2)
        self.assertIsInstance(made.find(who("a", 1)), Old)
        self.assertIsInstance(made.find(who("a", 0)), Old)
        self.assertIsNone(made.find(who("a", 2, 2)))

    def test_forgotten(self) -> None:
        """A session that was forgotten is told so, and one that is younger than that is not."""
        for what, value in (("SESSIONS", 2), ("KEPT", 100)):
            setattr(table, what, value)
        made = Table()
        for number, session in enumerate("abc", 1):
            made.take(who(session, 0), commit(number), number)
        self.assertEqual(made.horizon, 1)
        self.assertIsInstance(made.find(who("a", 0)), Late)
        self.assertEqual(made.find(who("b", 0)), commit(2))
        self.assertIsNone(made.find(who("d", 0, 0, 1)))
        made.take(who("c", 1), commit(200), 200)
        self.assertEqual(made.horizon, 2)
        self.assertIsInstance(made.find(who("b", 0)), Late)
        self.assertIsNone(made.find(who("e", 0, 0, 2)))

    def test_forgotten_meanwhile(self) -> None:
        """Of a session that was forgotten while a request of it was run what came of that is told, and of others that
        it isn't known."""
        setattr(table, "SESSIONS", 2)
        made = Table()
        made.take(who("a", 0), commit(1), 1)
        self.assertIsNone(made.find(who("a", 1)))
        for number, session in enumerate("bcd", 2):
            made.take(who(session, 0, 0, 1), commit(number), number)
        made.take(who("a", 1), commit(5), 5)
        made = Table.of(made.copy().raw())
        self.assertEqual(made.find(who("a", 1)), commit(5))
        for place in (0, 2):
            self.assertIsInstance(made.find(who("a", place)), Late)
        made.take(who("a", 4, 3), commit(6), 6)
        self.assertIsInstance(made.find(who("a", 0)), Old)
        self.assertIsInstance(made.find(who("a", 5)), Late)
        made.take(who("e", 0, 0, 4), commit(7), 7)
        self.assertIsNone(made.find(who("e", 1, 0, 4)))

    def test_model(self) -> None:
        """Against a model that forgets nothing: no request is done twice, whichever are forgotten."""
        setattr(table, "SESSIONS", 4)
        setattr(table, "KEPT", 30)
        import random

        order = random.Random(801)
        made, number = Table(), 0
        done: Dict[Any, int] = {}
        for _ in range(2000):
            batch: Dict[Any, Who] = {}
            for _ in range(order.randrange(1, 9)):
                since = max(0, number - order.randrange(60))
                it = who(f"{since}.{order.randrange(3)}", order.randrange(3), 0, since)
                found, key = made.find(it), (it.session, it.place)
                if isinstance(found, Commit):
                    self.assertEqual(done[key], found.number)
                elif found is None:
                    self.assertNotIn(key, done)
                    batch[key] = it
            for key, it in batch.items():
                number += 1
                done[key] = number
                made.take(it, commit(number), number)
            if order.random() < 0.05:
                made = made.copy()

    def test_gave_up(self) -> None:
        """An old copy of one that gave up isn't run, also where it was forgotten."""
        setattr(table, "SESSIONS", 1)
        seen = Seen()
        sent = seen.tick
        seen.take(who("a", 0), Check(1, 8, 0))
        self.assertEqual(seen.find(who("a", 0)), Check(1, 8, 0))
        self.assertFalse(seen.is_stale(sent))
        seen.take(who("b", 0), Check(1, 8, 0))
        self.assertIsNone(seen.find(who("a", 0)))
        self.assertTrue(seen.is_stale(sent))
        self.assertFalse(seen.is_stale(seen.tick))

    def test_nobody(self) -> None:
        """What is no request's."""
        for raw in (
            [0, "a", 0],
            [0, "a", 1, 0],
            [-1, "a", 0, 0],
            [0, "", 0, 0],
            [0, "a" * 101, 0, 0],
            [0, "a", 0, 4096],
            [True, "a", 0, 0],
            [0, 7, 0, 0],
            5,
        ):
            with self.assertRaises((ValueError, TypeError)):
                Who.of(raw)


class Slots(unittest.TestCase):
    """Which requests a store takes."""

    def has(self, store: str, slot: Slot, **guard: List[List[int]]) -> bool:
        """Whether a store has what is named, of a table with this slot 0 alone."""
        return Config("c", ("a", "b"), "p", (slot,), 1).has(store, guard)

    def test_slots(self) -> None:
        """Served, frozen and filled."""
        here, moves = Slot("a", 3, 5), Slot("a", 3, 5, ("b", 7))
        self.assertTrue(self.has("a", here))
        self.assertTrue(self.has("a", here, slots=[[0, 3, 5]]))
        for wrong in ([0, 3, 4], [0, 2, 5], [1, 3, 5], [-1, 3, 5]):
            self.assertFalse(self.has("a", here, slots=[wrong]))
        self.assertFalse(self.has("b", here, slots=[[0, 3, 5]]))
        self.assertFalse(self.has("a", moves, slots=[[0, 3, 5]]))
        self.assertTrue(self.has("a", moves, frozen=[[0, 3, 5]]))
        self.assertFalse(self.has("a", here, frozen=[[0, 3, 5]]))
        self.assertFalse(self.has("b", moves, frozen=[[0, 3, 5]]))
        self.assertTrue(self.has("b", moves, filled=[[0, 7, 5]]))
        self.assertFalse(self.has("b", moves, filled=[[0, 3, 5]]))
        self.assertFalse(self.has("a", moves, filled=[[0, 7, 5]]))

    def test_raw(self) -> None:
        """It is read as it was put."""
        from romp801.cluster.engine import Item

        config = Config("c", ("a", "b"), "p", (Slot("a", 0, 0), Slot("b", 1, 2, ("a", 4))), 9)
        self.assertEqual(Config.of(Item(b"", config.raw(), 1, 9, 0)), config)


class Safe(unittest.TestCase):
    """Who is let in, and where a node may listen."""

    def test_port(self) -> None:
        """Others reach it with certificates alone."""
        for listen in ("127.0.0.1:1", "localhost:1", "[::1]:1", "127.5.5.5:1"):
            Safety().look_at_port(listen)
        for listen in ("0.0.0.0:1", "10.0.0.1:1", "[::]:1", "host:1"):
            with self.assertRaises(Failure):
                Safety(None, "a secret of many letters").look_at_port(listen)
        for text in ("10.0.0.1", ":1", "a:b", "a:70000"):
            with self.assertRaises(Failure):
                address(text)

    def test_secret(self) -> None:
        """A certificate, or the secret."""
        safety = Safety(None, "sesame, open sesame")
        self.assertTrue(safety.lets_in(None, "sesame, open sesame"))
        self.assertTrue(safety.lets_in({"subject": ()}, None))
        for told in (None, "", "sesame", 5):
            self.assertFalse(safety.lets_in(None, told))
        self.assertTrue(Safety().lets_in(None, None))

    def test_names(self) -> None:
        """NAME=FILE."""
        self.assertEqual(named(["a=b", "c=d=e"]), {"a": "b", "c": "d=e"})
        for pairs in (["a"], ["=b"], ["a/b=c"], ["a=b", "a=c"]):
            with self.assertRaises(Failure):
                named(pairs)


class History(Case):
    """Entries and their texts, by the program."""

    def test_entry(self) -> None:
        """An entry is read as it was put."""
        asked = (Run("add", (1, 2)), Apply((Word(1, 0, 1, 1),), (Word(1, 4, 2, 2),)))
        done = (
            Done(who("a", 0), message_of(asked[0]), Commit(1, 6, 3, b"\x01")),
            Done(who("b", 1), message_of(asked[1]), Commit(2, 7, 9, b"")),
        )
        entry = Entry(5, 7, link("", "t"), 12, "p", done, "t")
        found = Entry.of(entry.packed())
        self.assertEqual([it._replace(asked={}) for it in found.done], [it._replace(asked={}) for it in done])
        self.assertEqual(
            (found._replace(done=()), tuple(it.request for it in found.done)), (entry._replace(done=()), asked)
        )
        for data in (b"", entry.packed()[:-5], b"x" * 40):
            with self.assertRaises(Failure):
                Entry.of(data)

    def test_follows(self) -> None:
        """A store in memory follows texts that were put together, and what they write is its content."""
        image = first = files.read_bytes(self.second)
        front = Front(PROGRAMS)
        texts, number = [], 0
        held: Optional[Held] = None
        for value in (5, 6, 7):
            if held is not None:
                held.close()
            held = Held(self.program, image)
            done = held.job(front.job([Run("add", (256, value))]), lambda end: None)
            self.assertEqual(done.status, 0)
            texts.append(held.shipped(number))
            image, number = held.image(), number + 1
        of(held).close()
        follower = Held(self.program, first)
        content = Content(follower.image())
        for place, text in enumerate(texts, 1):
            content.take(text, place)
        self.assertEqual(follower.call("follow", given=merged(texts)).returncode, 0)
        store = Store(follower.image())
        self.assertEqual((store.number, content.number), (3, 3))
        self.assertEqual(b"".join(store.content().values()), bytes(content.bytes))
        self.assertEqual(content.bytes_at(1, 256, 4), (18).to_bytes(4, "big"))

    def test_prepared(self) -> None:
        """A process that was begun before its job runs on the store as it is by then, for one that was killed another
        is begun, and a store that is forgotten has none."""
        held = Held(self.program, files.read_bytes(self.second))
        job = Front(PROGRAMS).job([Run("add", (256, 5))])
        for number in range(6):
            if number % 3 == 1:
                held.prepare()
            if number == 4:
                assert held.waiting is not None
                held.waiting.kill()
                held.waiting.wait()
            ends: List[Any] = []
            told = held.job(job, ends.append)
            self.assertEqual((told.status, [it.number for it in ends]), (0, [number + 1]))
            self.assertEqual(told.report.split(b"\n")[-2], b"end %d" % (number + 1))
            self.assertEqual(held.shipped(number).split("\n")[-2], f"end {number + 1}")
        waiting = held.waiting
        held.close()
        assert waiting is not None
        self.assertIsNotNone(waiting.returncode)

    def test_text(self) -> None:
        """The text that is read out of the records is what `ship` prints: of commits of no line, of one and of many,
        in either bank, of both versions; and there is none where a checkpoint has come between."""
        import random

        order = random.Random(801)
        for path in (self.first, self.second):
            image = files.read_bytes(path)
            held, journal, front, number = Held(self.program, image), Journal(image), Front(PROGRAMS), 0
            for turn in range(12):
                some = [Run("add", (4 * order.randrange(500), 5)) for _ in range(order.randrange(4))]
                words = tuple(Word(1, 4 * it, 0xFFFFFFFF, turn) for it in order.sample(range(500), turn))
                told = held.job(front.job([*some, Apply((), words)], 1, [Checkpoint()]), lambda end: None)
                self.assertEqual(told.status, 0)
                text = journal.text(held.file, number)
                self.assertEqual(text, held.shipped(number))
                last = int(told.report.split()[-1])
                self.assertEqual(journal.text(held.file, last), None if last > number else text)
                number = last
            full: List[Request] = [Run("add", (256, 1))] * 400
            last = int(held.job(front.job(full, 1, [Checkpoint()]), lambda end: None).report.split()[-1])
            self.assertEqual((last, journal.text(held.file, number)), (number + 400, None))
            with self.assertRaises(Failure):
                held.shipped(number)
            held.close()

    def test_killed(self) -> None:
        """A call of `ship` whose process is killed is made again, and one that is killed each time fails."""
        held = Held(self.program, files.read_bytes(self.second))
        self.addCleanup(held.close)
        real, killed = held.call, subprocess.CompletedProcess[bytes]([], -9, b"", b"")
        for times, ends in ((3, True), (held_module.TRIES, False)):
            left = [killed] * times
            with mock.patch.object(held, "call", lambda *its: left.pop() if left else real(*its)):
                if ends:
                    self.assertEqual(held.shipped(0).split("\n")[-2], "end 0")
                else:
                    self.assertRaises(Failure, held.shipped, 0)

    def test_failed(self) -> None:
        """A job that is refused has its status and its words."""
        held = Held(self.program, files.read_bytes(self.second))
        self.addCleanup(held.close)
        told = held.job(b"nothing\n", lambda end: None)
        self.assertEqual((told.status, told.report), (3, b""))
        self.assertIn(b"job 1", told.errors)


if __name__ == "__main__":
    unittest.main()
