"""The program called, what it prints, a store that is followed and a connection: also what they mustn't be asked."""
from __future__ import annotations

import contextlib
import os
import socket
import threading
import unittest
from typing import Callable
from unittest import mock

from romp801 import Failure, connect, files, gather, prints, program, words
from romp801.follower import Follower
from romp801.program import Ahead, Program
from romp801.report import Commit, Ended
from romp801.request import Asked, Front, Run, Take
from romp801.wire import Wire
from tests.stores import PROGRAMS, Case


class Calls(Case):
    """Calls of the program."""

    def job(self, *begins: str) -> bytes:
        """A job of programs."""
        events = "".join(f"begin {it}\nturn {place} 100\n" for place, it in enumerate(begins, 1))
        return f"{PROGRAMS}schedule\n{events}end\n".encode()

    def test_find(self) -> None:
        """A program that is named must be there, and one to run."""
        for name in (self.path("nosuch"), self.first, self.folder):
            with self.assertRaises(Failure) as raised:
                Program.find(name)
            self.assertEqual(raised.exception.status, 2)
        with mock.patch.dict(os.environ, {"ROMP801": self.path("nosuch")}), self.assertRaises(Failure):
            Program.find()
        self.assertEqual(Program.find(self.program.path).path, self.program.path)

    def test_names(self) -> None:
        """A name that isn't UTF-8 is refused, whichever way the program is called."""
        odd = os.fsdecode(b"\xff")
        asks: list[Callable[[], object]] = [
            lambda: self.program.call("run", odd),
            lambda: self.program.begin("run", odd),
        ]
        for ask in asks:
            with self.assertRaises(Failure):
                ask()

    def test_stores_that_are_none(self) -> None:
        """What isn't a store has no number and nothing to follow."""
        cases = ((self.path("nosuch"), "no such file"), (self.folder, "no regular file"), (self.programs, "no store"))
        for name, why in cases:
            with self.assertRaises(Failure) as raised:
                self.program.number(name)
            self.assertIn(why, str(raised.exception))
            with self.assertRaises(Failure):
                Follower(name, 0.0)
        with files.locked(self.first), self.assertRaises(Failure) as raised:
            self.program.number(self.first)
        self.assertIn("another process has it", str(raised.exception))

    def test_statuses(self) -> None:
        """A status in words, also one that no page has."""
        done = self.program.call("try", given=b"no job")
        self.assertEqual(program.refused_job(done), (1, 10))
        with self.assertRaises(Failure) as raised:
            program.refused(done, "a job")
        self.assertIn("the program ended with 3", str(raised.exception))
        self.assertIsNone(program.refused_job(self.program.call("try", given=self.job("no"))))
        for status in (-9, 5, 99):
            self.assertTrue(words.status(status))

    def test_replays(self) -> None:
        """A job that is run again, up to a number that it comes to and to one that it doesn't."""
        text, opening = self.job("no", "add 256 1", "add 256 1"), files.read_bytes(self.first)
        report, number = self.program.replay(text, opening, 1, to_next=True)
        self.assertEqual((number, report.count(b"commit")), (1, 1))
        self.assertEqual(self.program.replay(text, opening, 7).number, 2)
        self.assertEqual(self.program.replay(b"no job", opening, 1), program.Replay(b"", None))

    def test_ahead(self) -> None:
        """Programs that wait for their job: it is run, also where the one that waited was killed; and one whose job
        never comes, or doesn't come whole, does nothing."""
        ahead = Ahead(self.program, "run", self.first)
        for place in range(1, 5):
            with ahead.start("run", self.first, given=self.job("add 256 1")) as child:
                out, _ = child.communicate()
            self.assertIn(b"number %d " % place, out)
            assert ahead.waiting is not None
            if place == 2:
                ahead.waiting.kill()
                ahead.waiting.wait()
            ahead.done(True)
        ahead.end()
        ahead.end()
        self.assertIsNone(ahead.waiting)
        whole = self.job("add 256 1", "add 256 1")
        for length in (0, 1, len(PROGRAMS), whole.index(b"schedule"), len(whole) - 5, len(whole) - 2):
            with self.program.begin("run", self.first) as child:
                out, _ = child.communicate(whole[:length])
            self.assertEqual((out, child.returncode), (b"", 3), length)
        self.assertEqual(self.program.number(self.first), 4)

    def test_ahead_forgets(self) -> None:
        """Memory forgets a store in front of the first job, behind one that failed, and where somebody else wrote it;
        and not behind a job that went well."""
        ahead, text = Ahead(self.program, "run", self.first), self.job("add 256 1")

        def forgets(went_well: bool = True) -> bool:
            with mock.patch.object(files, "forget_store", wraps=files.forget_store) as forget:
                with ahead.start("run", self.first, given=text) as child:
                    child.communicate()
            ahead.done(went_well)
            return forget.called

        self.assertEqual([forgets(), forgets(), forgets(went_well=False)], [True, False, False])
        self.assertEqual([forgets(), forgets()], [True, False])
        self.program.call("run", self.first, given=text)
        self.assertEqual([forgets(), forgets()], [True, False])
        with files.locked(self.first, 0.0):
            self.assertIsNone(files.mark_of(self.first))
        ahead.end()

    def test_follower(self) -> None:
        """A follower takes commits as they come, also over checkpoints, and says where it can't."""
        found, store = Follower(self.first), connect(self.first, self.programs)
        for place in range(1, 40):
            store.run(("add", 256, 1))
            self.assertTrue(found.to(place))
            self.assertEqual(found.bytes_at(1, 256, 4), place.to_bytes(4, "big"))
        self.assertFalse(found.to(40))
        store.run(*[("add", 256, 1)] * 300)
        self.assertFalse(found.to(339))
        found.read()
        self.assertEqual((found.number, found.bytes_at(1, 256, 4)), (339, (339).to_bytes(4, "big")))


class Texts(unittest.TestCase):
    """What is no text of the program."""

    def test_prints(self) -> None:
        """A listing, a trace and an audit that are none."""
        asks: list[Callable[[], object]] = [
            lambda: prints.images_of("program\n"),
            lambda: prints.touches_of("step 1 x 5\n"),
            lambda: prints.verdict_of("audit perhaps\n"),
            lambda: prints.verdict_of("audit yes\n"),
        ]
        for ask in asks:
            with self.assertRaises(ValueError):
                ask()


class Wires(unittest.TestCase):
    """A client's connection."""

    def setUp(self) -> None:
        """Two ends."""
        one, self.other = socket.socketpair()
        self.wire = Wire(one, 0.2)
        self.addCleanup(self.other.close)
        self.addCleanup(self.wire.close)

    def test_no_answer(self) -> None:
        """Nobody answers, or has gone."""
        with self.assertRaises(TimeoutError):
            [*self.wire.ask({1: {"stat": True}})]
        self.other.close()
        with self.assertRaises(OSError):
            [*self.wire.ask({1: {"stat": True}})]

    def test_old_answers(self) -> None:
        """An answer to what was asked before is none to what is asked now, and one without a tag is for all."""
        self.other.sendall(b'{"tag": 7, "end": 1}\n{"tag": 0, "end": 2}\n')
        self.assertEqual([*self.wire.ask({5: {"stat": True}})], [(5, {"tag": 0, "end": 2})])
        self.other.sendall(b'{"tag": null, "error": "it is too long"}\n')
        with self.assertRaises(Failure):
            [*self.wire.ask({5: {"stat": True}})]


class Gathered(gather.Gatherer):
    """What is told of requests."""

    def __init__(self, runner: gather.Runner) -> None:
        super().__init__(runner)
        self.heard: list[object] = []
        self.ended = threading.Event()

    def told(self, asked: Asked, end: Ended) -> None:
        """A request ended."""
        self.heard.append(end)

    def untold(self, asked: list[Asked], failure: Failure) -> None:
        """A job failed."""
        self.heard.append(str(failure))

    def over(self) -> None:
        """The thread ends."""
        self.ended.set()


class Failing:
    """A runner whose first jobs fail."""

    def __init__(self, errors: list[Exception]) -> None:
        self.front, self.errors = Front(PROGRAMS), errors

    def run(self, asked: list[Asked], rounds: int, take: Take) -> None:
        """Runs a job."""
        if self.errors:
            raise self.errors.pop(0)
        for place in range(len(asked)):
            take(place, Commit(1, 1, 1, b""))


class Gathering(unittest.TestCase):
    """Requests that are gathered."""

    def test_failures(self) -> None:
        """A job that fails is told, and the next one runs; a mistake of the server ends it."""
        cases: list[tuple[list[Exception], list[object]]] = [
            ([], [Commit(1, 1, 1, b"")]),
            ([Failure("full")], ["full"]),
            ([KeyError("x")], []),
        ]
        for errors, heard in cases:
            made = Gathered(Failing(errors))
            made.start()
            made.ask(Asked("a", Run("no")))
            with contextlib.suppress(AssertionError):
                made.end()
            self.assertTrue(made.ended.wait(10))
            self.assertEqual(made.heard, heard)
            self.assertEqual(made.failed is not None, heard == [])


if __name__ == "__main__":
    unittest.main()
