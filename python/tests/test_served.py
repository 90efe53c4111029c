"""A served store: sessions that are forgotten, tickets, wrong uses by a client, and a server that goes away."""
from __future__ import annotations

import asyncio
import contextlib
import socket
import threading
import time
from typing import Any, Callable, Iterator
from unittest import mock

from romp801 import Failure, TooLate, Transaction, answers, connect, files, records, server
from romp801.answers import key_of
from romp801.client import ServedStore
from romp801.cluster import table
from romp801.ledger import Ledger
from romp801.report import Check, Commit
from romp801.request import Front
from tests.stores import ACCOUNTS, PROGRAMS, Case


class Served(Case):
    """Clients of a server in this process."""

    @contextlib.contextmanager
    def serving(self) -> Iterator[ServedStore]:
        """A server, until the block ends, and a client."""
        book = Ledger(self.second, self.path("served"), self.program, Front(PROGRAMS))
        book.has_store()
        book.open()
        made, stops = server.Server(book, self.path("socket"), 0o600, None), list[asyncio.Event]()

        async def listen() -> None:
            """Serves until it is told to stop."""
            stops.append(asyncio.Event())
            await made.listen(stops[0])

        thread = threading.Thread(target=lambda: asyncio.run(listen()))
        thread.start()
        try:
            for _ in range(200):
                with contextlib.suppress(Failure, OSError), connect(self.path("socket")) as store:
                    assert isinstance(store, ServedStore)
                    yield store
                    break
                time.sleep(0.05)
        finally:
            made.loop.call_soon_threadsafe(stops[0].set)
            thread.join()
            book.close()

    @staticmethod
    def add(t: Transaction) -> None:
        """One more."""
        t[ACCOUNTS[3]].balance += 1

    def test_forgotten_sessions(self) -> None:
        """A session that was forgotten goes on under another name, where nothing of it is in doubt; a ticket that was
        forgotten is told so, and isn't done again."""
        with mock.patch.object(table, "SESSIONS", 3), self.serving() as store:
            with connect(self.path("socket")) as quiet:
                ticket, unused = quiet.ticket(), quiet.ticket()
                self.assertEqual(quiet.once(ticket, self.add).number, 1)
                self.assertIsNone(quiet.answered(f"{unused}.0"))
                quiet.run(("no",))
                for place in range(8):
                    with connect(self.path("socket")) as other:
                        other.run(("add", 512, 1))
                asks: list[Callable[[], object]] = [
                    lambda: quiet.once(ticket, self.add),
                    lambda: quiet.answered(f"{ticket}.0"),
                ]
                for ask in asks:
                    with self.assertRaises(TooLate):
                        ask()
                with self.assertRaises(TooLate):
                    quiet.once(unused, self.add)
                self.assertIsInstance(quiet.run(("add", 512, 1))[0], Commit)
                self.assertEqual([it.word for it in quiet.run(("add", 512, 1), ("no",))], ["commit", "check"])
            self.assertEqual(store.number(), 11)
            self.assertEqual(store.values(ACCOUNTS[3])["balance"], 1)

    def test_late_and_unsure(self) -> None:
        """What was sent before over a connection that broke, and comes too late, isn't asked under another name."""
        with mock.patch.object(table, "SESSIONS", 3), self.serving() as store:
            real, sent = store._send, list[int]()

            def lost(messages: dict[int, dict[str, Any]], found: dict[int, dict[str, Any]]) -> str:
                """The answer is lost, and others come before it is asked again."""
                why = real(messages, {} if not sent else found)
                sent.append(1)
                if len(sent) == 1:
                    for _ in range(8):
                        with connect(self.path("socket")) as other:
                            other.run(("add", 512, 1))
                return why

            store.run(("add", 512, 1))
            with mock.patch.object(store, "_send", lost), self.assertRaises(TooLate):
                store.run(("add", 512, 1))
            self.assertEqual(store.number(), 10)
            store.run(("add", 512, 1))
            self.assertEqual(store.number(), 11)

    def test_lost_answer(self) -> None:
        """An answer that was lost is asked for again, and it was done once."""
        with self.serving() as store:
            real, sent = store._send, list[int]()

            def lost(messages: dict[int, dict[str, Any]], found: dict[int, dict[str, Any]]) -> str:
                """The answer is lost."""
                why = real(messages, {} if not sent else found)
                sent.append(1)
                return why

            with mock.patch.object(store, "_send", lost):
                end = store.run(("add", 512, 1), ("no",))
            self.assertIsInstance(end[0], Commit)
            self.assertIsInstance(end[1], Check)
            self.assertEqual((store.number(), len(sent)), (1, 2))

    def test_names(self) -> None:
        """A name is answered for ever, and there is a limit to names, but none to tickets."""
        with self.serving() as store, mock.patch.object(answers, "NAMES", 2):
            ends = store.run(("add", 512, 1), ("no",), name="order 1")
            self.assertEqual(store.run(("add", 512, 1), ("no",), name="order 1"), ends)
            with self.assertRaises(Failure) as raised:
                store.run(("add", 512, 1), name="order 2")
            self.assertIn("take tickets", str(raised.exception))
            ticket = store.ticket()
            ends = store.run(("add", 512, 1), ("no",), name=ticket)
            self.assertEqual(store.run(("add", 512, 1), ("no",), name=ticket), ends)
            self.assertEqual(store.number(), 2)

    def test_wrong_uses(self) -> None:
        """What a client mustn't ask is a Failure that says why, and the store goes on."""
        with self.serving() as store:
            wrong: list[tuple[Callable[[], object], str]] = [
                (lambda: store.run(("nosuch",)), "there is no program nosuch"),
                (lambda: store.run(("add", -1)), "is no value"),
                (lambda: store.run(("add", 1, 2, 3, 4, 5)), "at most four"),
                (lambda: store.run(("add", 512, 1), name="x" * 200), "a name is a text"),
                (lambda: store.answered("x" * 201), "a name is a text"),
                (lambda: store.read([(1, at) for at in range(0, 12288, 1)]), "at most 65536 bytes"),
                (lambda: store.values(records.Records.of("far", "a u4", segment=9, size=4)[0]), "segment 9"),
                (lambda: store.update(lambda t: t.write(1, 0, bytes(8192))), "touches at most"),
                (lambda: store.update(lambda t: t.write(1, 12288, b"x")), "has no 1 bytes"),
            ]
            for ask, why in wrong:
                with self.assertRaises(Failure) as raised:
                    ask()
                self.assertIn(why, str(raised.exception))
            with self.assertRaises(Failure):
                server.listening(self.path("socket"), 0o600)
            self.assertEqual(store.number(), 0)
        for name in ("", 5, None, "x" * 201):
            with self.assertRaises(Failure):
                key_of(name)
        odd: list[list[object]] = [[], [1, "s", 0], [1, "", 0, 0], [1, "s", 1, 0], [-1, "s", 0, 0]]
        odd += [[1, "s" * 101, 0, 0], [1, "s", 0, 4096]]
        for raw in odd:
            with self.assertRaises(ValueError):
                key_of(raw)

    def test_nobody(self) -> None:
        """A server that went away is asked for so long, and then it is a Failure; a connection may be closed twice."""
        with self.serving() as store:
            store.run(("add", 512, 1))
        store.seconds = 0.2
        with self.assertRaises(Failure) as raised:
            store.number()
        self.assertIn("nobody answers", str(raised.exception))
        store.close()
        store.close()
        with socket.socket(socket.AF_UNIX, socket.SOCK_STREAM) as link:
            link.bind(self.path("left"))
        server.listening(self.path("left"), 0o600).close()
        with self.assertRaises(Failure):
            server.listening(self.second, 0o600)
        self.assertTrue(files.is_there(self.path("left")))
