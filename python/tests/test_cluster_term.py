"""What a primary promises, each by a case in which a primary that doesn't keep it is seen: an engine in memory loses
answers, has another primary or other slots in between, or is put back to a backup. checks/cluster_wrong makes such
primaries, and looks that these tests fail."""
from __future__ import annotations

import asyncio
import json
import os
import threading
import time
import unittest
from types import SimpleNamespace
from typing import Any, Callable, Dict, List, Optional, Tuple, cast
from unittest import mock

from romp801 import Failure, Records, files, program
from romp801.cluster import engine as etcd
from romp801.cluster import replica as replica_module
from romp801.cluster import setup
from romp801.cluster.audit import audit_store
from romp801.cluster.client import Cluster, Moved
from romp801.cluster.engine import Part
from romp801.cluster.held import Content, Held, Journal
from romp801.cluster.history import Entry
from romp801.cluster.keeper import Serving
from romp801.cluster.keys import CONFIG, Config, Keys, Slot
from romp801.cluster.node import Port
from romp801.cluster.outbox import Outbox
from romp801.cluster.reader import Reader
from romp801.cluster.replica import Replica
from romp801.cluster.slots import Move
from romp801.cluster.table import Who
from romp801.cluster.term import Deposed, Order, Term
from romp801.listener import Client, Waiting
from romp801.report import Commit, Ended
from romp801.request import Apply, Asked, Request, Run, Word
from tests.engines import Lost, Memory, of
from tests.stores import PROGRAMS, Case

TOP = os.path.dirname(os.path.dirname(os.path.dirname(os.path.abspath(__file__))))
ADD, NO = Run("add", (256, 5)), Run("no")


class Primary:
    """A node that is a store's primary, and what it told."""

    def __init__(
        self, engine: Memory, romp801: program.Program, name: str, folder: str, takes_over: bool = True
    ) -> None:
        os.makedirs(folder, exist_ok=True)
        self.engine, self.keys = engine, Keys(name)
        self.replica = Replica(engine, romp801, name, folder, Config.read(engine).cluster, lambda said: None)
        while self.replica.follow():
            pass
        if takes_over:
            engine.remove(self.keys.primary, self.keys.primary + b"\0")
            engine.put(self.keys.primary, json.dumps({"name": folder, "at": "", "token": folder}).encode())
        self.told: List[Tuple[str, Ended]] = []
        self.untold: List[str] = []
        created = of(engine.get(self.keys.primary)).created
        self.term = Term(
            self.replica,
            engine,
            created,
            lambda: True,
            lambda asked, end: self.told.append((asked.name, end)),
            lambda asked, failure: self.untold.extend(it.name for it in asked),
            self.follow,
        )
        self.thread = threading.Thread(target=self.term.put_loop, daemon=True)
        self.thread.start()

    def follow(self) -> None:
        """The copy follows."""
        while self.replica.follow():
            pass

    def start(
        self, *requests: Request, session: str = "a", at: int = 0, guard: Optional[Dict[str, Any]] = None
    ) -> None:
        """Runs requests; they may be being put when this ends."""
        asked = [
            Asked(f"{session}.{at + place}", it, Order(Who(0, session, at, at + place), guard or {}))
            for place, it in enumerate(requests)
        ]
        self.term.run(asked, 1, lambda place, end: None)

    def ask(
        self, *requests: Request, session: str = "a", at: int = 0, guard: Optional[Dict[str, Any]] = None
    ) -> List[str]:
        """The same to the end; answers what was told of them."""
        self.start(*requests, session=session, at=at, guard=guard)
        self.term._wait_settled()
        found = {name: it for name, end in self.told for it in [self.serving().answer(end)]}
        names = [f"{session}.{at + place}" for place in range(len(requests))]
        return [str(found[it].get("end", "moved")) if it in found else "-" for it in names]

    def serving(self) -> Serving:
        """What a node has of it."""
        return Serving(self.term, cast(Waiting, None), Reader(self.term))

    def commits(self) -> List[Tuple[str, int, int]]:
        """What the engine's history has: the session, the place and the number of each commit."""
        items = self.engine.range(self.keys.logs, etcd.end_of(self.keys.logs))
        return [(it.who.session, it.who.place, it.commit.number) for item in items for it in Entry.of(item.value).done]

    def read(self, guard: Optional[Dict[str, Any]] = None) -> Dict[str, Any]:
        """What a reader is told of the first word that `add` adds to."""
        answers: List[Any] = []
        reader = Reader(self.term)
        reader.start()
        reader.ask(guard or {}, lambda: {"value": self.word(1, 256)}, answers.append)
        end = time.monotonic() + 10
        while not answers and time.monotonic() < end:
            time.sleep(0.001)
        return dict(answers[0]) if answers else {}

    def word(self, segment: int, offset: int) -> int:
        """A word of what is at hand."""
        return int.from_bytes(self.term.content.bytes_at(segment, offset, 4), "big")

    def end(self) -> None:
        """Ends it."""
        self.term.over("the test is over")
        self.thread.join(10)
        self.term.close()


class Cases(Case):
    """A cluster of one store, or of two, on an engine in memory."""

    def setUp(self) -> None:
        """Makes it."""
        super().setUp()
        self.engine = Memory()
        self.all: List[Primary] = []
        setup.make(self.engine, PROGRAMS, {"a": self.second, "b": self.first}, 4)

    def primary(self, name: str = "n1", store: str = "a", takes_over: bool = True) -> Primary:
        """A node becomes the primary."""
        made = Primary(self.engine, self.program, store, self.path(name), takes_over)
        self.addCleanup(made.end)
        return made

    def change(self, changed: Callable[[Config], Config]) -> None:
        """What holds for all stores is changed, by one to whose calls nothing happens."""
        item = of(self.engine.get(CONFIG))
        self.engine.put(CONFIG, changed(Config.of(item)).raw())

    def depose(self, store: str = "a") -> None:
        """Another is the primary."""
        key = Keys(store).primary
        self.engine.remove(key, key + b"\0")
        self.engine.put(key, json.dumps({"name": "other", "at": "", "token": "other"}).encode())


class Told(Cases):
    """Nothing is told that may yet be lost."""

    def test_behind(self) -> None:
        """A commit is told when the engine has taken it, and gives its own number and bytes."""
        one = self.primary()
        early: List[Any] = []
        self.engine.before = lambda compares, deeds: early.extend(one.told)
        self.assertEqual(one.ask(ADD, NO), ["commit 1 number 1 steps 6 out -", "check 2 code 8 at 00000000"])
        self.assertEqual(early, [])
        self.assertEqual(one.commits(), [("a", 0, 1)])
        for place in range(49):
            self.engine.before = lambda compares, deeds: None
            found = one.ask(ADD, session="b", at=place)[0].split()
            self.assertEqual(int(found[3]), place + 2)

    def test_another_text(self) -> None:
        """Where what is put isn't what `ship` prints nobody is told, and the term is over."""
        one = self.primary()
        one.ask(ADD)
        real = Journal.text
        with mock.patch.object(Journal, "text", lambda *its: of(real(*its)).replace("0a", "0b")):
            self.assertEqual(one.ask(ADD, session="b"), ["-"])
        self.assertEqual((one.ask(ADD, session="c"), one.untold, one.told[1:]), (["-"], ["b.0", "c.0"], []))
        self.assertIn("`ship`", of(one.term.why))

    def test_behind_ship(self) -> None:
        """A commit that the engine has taken is told when `ship` has printed it."""
        one = self.primary()
        going, real = threading.Event(), Held.shipped

        def shipped(held: Held, number: int) -> str:
            """It takes long."""
            going.wait(10)
            return real(held, number)

        with mock.patch.object(Held, "shipped", shipped):
            other = threading.Thread(target=one.start, args=(ADD,))
            other.start()
            end = time.monotonic() + 10
            while not one.commits() and time.monotonic() < end:
                time.sleep(0.01)
            time.sleep(0.1)
            self.assertEqual((one.commits(), one.told), ([("a", 0, 1)], []))
            going.set()
            other.join(10)
        one.term._wait_settled()
        self.assertEqual([(name, str(end)) for name, end in one.told], [("a.0", "commit 1 number 1 steps 6 out -")])

    def test_lost_answers(self) -> None:
        """Of a call without an answer it is looked at what came of it: it is told once, and done once."""
        one = self.primary()
        for number, made in enumerate([True, False, False, True], 1):
            lost = [made]

            def before(compares: List[Part], deeds: List[Part]) -> None:
                """The first call has no answer."""
                if lost:
                    raise Lost(lost.pop())

            self.engine.before = before
            self.assertEqual(one.ask(ADD, at=number)[0].split()[3], str(number))
        self.assertEqual([number for _, _, number in one.commits()], [1, 2, 3, 4])

    def test_lost_and_deposed(self) -> None:
        """Where the call wasn't made and another is the primary nothing is told as done."""
        one = self.primary()

        def before(compares: List[Part], deeds: List[Part]) -> None:
            """The call is lost, and the node isn't the primary any more."""
            self.depose()
            raise Lost(False)

        self.engine.before = before
        self.assertEqual(one.ask(ADD), ["-"])
        self.assertEqual((one.untold, one.commits()), (["a.0"], []))

    def test_deposed(self) -> None:
        """A primary that was deposed puts nothing, and tells nothing, also of what gave up."""
        one = self.primary()
        one.ask(ADD)
        two = self.primary("n2")
        self.assertEqual(two.ask(ADD, session="b"), ["commit 1 number 2 steps 6 out -"])
        self.assertEqual(one.ask(ADD, session="c"), ["-"])
        self.assertEqual(two.commits(), [("a", 0, 1), ("b", 0, 2)])
        three = self.primary("n3")
        self.primary("n4").ask(ADD, session="d")
        compare = Apply((Word(1, 256, 0xFFFFFFFF, 15),), (Word(1, 0, 1, 1),))
        self.assertEqual(three.ask(compare, session="e"), ["-"])

    def test_late_copy(self) -> None:
        """A copy of a call that arrives when others have come behind it changes nothing."""
        one = self.primary()
        kept: List[Tuple[List[Part], List[Part]]] = []
        self.engine.before = lambda compares, deeds: kept.append((compares, deeds))
        one.ask(ADD)
        one.ask(ADD, at=1)
        head = of(self.engine.get(one.keys.head)).value
        self.assertFalse(self.engine.apply(*kept[0]))
        self.assertEqual(of(self.engine.get(one.keys.head)).value, head)

    def test_behind_another(self) -> None:
        """A job that was run behind another isn't told where that wasn't taken."""
        one = self.primary()
        going, begun = threading.Event(), threading.Event()

        def before(compares: List[Part], deeds: List[Part]) -> None:
            """The call takes long, and meanwhile the programs are changed."""
            begun.set()
            going.wait(10)

        self.engine.before = before
        one.start(ADD, session="b")
        begun.wait(10)
        other = threading.Thread(target=one.start, args=(ADD,), kwargs={"session": "c"})
        other.start()
        time.sleep(0.3)
        self.change(lambda it: it._replace(cluster="other"))
        going.set()
        other.join(10)
        one.term._wait_settled()
        self.assertEqual((one.told, sorted(one.untold), one.commits()), ([], ["b.0", "c.0"], []))
        self.engine.before = lambda compares, deeds: None
        self.assertEqual(one.ask(ADD, session="c"), ["commit 1 number 1 steps 6 out -"])


class Once(Cases):
    """Each is done once."""

    def test_again(self) -> None:
        """One that is asked again is told what it was told, by this primary and by the next one."""
        one = self.primary()
        first = one.ask(ADD)
        self.assertEqual(one.ask(ADD), first)
        two = self.primary("n2")
        self.assertEqual(two.ask(ADD)[0].split()[3], "1")
        self.assertEqual(two.commits(), [("a", 0, 1)])

    def test_answered(self) -> None:
        """An old copy of one whose answer the client has, and one of a session that may be forgotten, aren't run."""
        one = self.primary()
        one.ask(ADD, session="a", at=0)
        one.ask(ADD, session="a", at=1)
        one.told.clear()
        self.assertEqual((one.ask(ADD, session="a", at=0), one.untold), (["-"], ["a.0"]))
        swap = Apply((Word(1, 256, 0xFFFFFFFF, 5),), (Word(1, 256, 0xFFFFFFFF, 9),))
        gave_up = one.ask(swap, session="b")
        one.term.table.horizon = 5
        self.assertEqual(one.ask(swap, session="b"), gave_up)
        self.assertEqual((one.ask(ADD, session="c"), one.untold[1:]), (["-"], ["c.0"]))
        self.assertEqual(one.commits(), [("a", 0, 1), ("a", 1, 2)])

    def test_gave_up(self) -> None:
        """One that gave up isn't run again in this term."""
        one = self.primary()
        swap = Apply((Word(1, 256, 0xFFFFFFFF, 5),), (Word(1, 256, 0xFFFFFFFF, 9),))
        self.assertEqual(one.ask(swap)[0].split()[:4], ["check", "1", "code", "8"])
        one.ask(ADD, session="b")
        self.assertEqual(one.ask(swap)[0].split()[:4], ["check", "1", "code", "8"])
        self.assertEqual(one.word(1, 256), 5)

    def test_image(self) -> None:
        """A node that begins with an image knows what was done before it."""
        one = self.primary()
        one.ask(ADD)
        one.follow()
        image = one.replica.snapshot()
        _, snap = image.put(self.engine, one.keys, "test")
        self.engine.put(one.keys.snap, snap)
        self.engine.remove(one.keys.logs, etcd.end_of(one.keys.logs))
        two = self.primary("n2")
        self.assertEqual(two.ask(ADD)[0].split()[3], "1")
        self.assertEqual(two.word(1, 256), 5)

    def test_old_copies(self) -> None:
        """A message of an earlier term, or of before what was forgotten, isn't run."""
        one = self.primary()
        taken: List[Any] = []

        async def serve(at: List[int]) -> Any:
            """What a node answers."""
            put: List[Any] = []
            client = cast(Client, SimpleNamespace(put=put.append, room=asyncio.Semaphore(9)))
            waiting = Waiting(asyncio.get_running_loop(), taken.append)
            port = Port(cast(Any, SimpleNamespace(loop=asyncio.get_running_loop())), cast(Any, None))
            serving = Serving(one.term, waiting, Reader(one.term))
            message = {"store": "a", "at": at, "who": [0, "a", 0, 0], "run": ["add", 256, 5]}
            await port._serve(client, 1, serving, message)
            return put

        created = one.term.created
        self.assertTrue(asyncio.run(serve([created - 1, 0]))[0]["moment"])
        one.term.seen.tick, one.term.seen.table.horizon = 9, 5
        self.assertTrue(asyncio.run(serve([created, 4]))[0]["moment"])
        self.assertEqual(taken, [])
        asyncio.run(serve([created, 5]))
        self.assertEqual([it.name for it in taken], ["0.a.0"])


class Reads(Cases):
    """What is read isn't old."""

    def test_old_primary(self) -> None:
        """One that was deposed tells nothing."""
        one = self.primary()
        self.assertEqual(one.read(), {"value": 0})
        two = self.primary("n2")
        two.ask(ADD)
        self.assertEqual(list(one.read()), ["again"])
        self.assertEqual(two.read(), {"value": 5})

    def test_behind(self) -> None:
        """What the engine has taken is read, also where its answer is on the way."""
        one = self.primary()
        taken, going = threading.Event(), threading.Event()

        def before(compares: List[Part], deeds: List[Part]) -> None:
            """It is made, and its answer takes a while."""
            self.engine.apply(compares, deeds)
            taken.set()
            going.wait(10)

        self.engine.before = before
        one.start(ADD)
        taken.wait(10)
        answers: List[Any] = []
        reader = threading.Thread(target=lambda: answers.append(one.read()))
        reader.start()
        time.sleep(0.2)
        self.assertEqual(answers, [])
        going.set()
        reader.join(10)
        self.assertEqual(answers, [{"value": 5}])

    def test_slots(self) -> None:
        """What names slots is read where they are."""
        one = self.primary()
        self.assertEqual(one.read({"slots": [[0, 0, 0]]}), {"value": 0})
        setup.change(self.engine, lambda it: it._replace(slots=(Slot("b", 3, 1), *it.slots[1:])))
        self.assertEqual(one.read({"slots": [[0, 0, 0]]}), {"moved": True})


class Moves(Cases):
    """Slots."""

    def test_elsewhere(self) -> None:
        """A request whose slot isn't here, or is frozen, isn't run; nor where that came in between."""
        one = self.primary()
        self.assertEqual(one.ask(ADD, guard={"slots": [[1, 0, 0]]}), ["moved"])
        self.assertEqual(one.ask(ADD, guard={"slots": [[0, 0, 0]]}, at=1)[0].split()[0], "commit")
        moves = [True]

        def before(compares: List[Part], deeds: List[Part]) -> None:
            """The slot is frozen in between."""
            if moves:
                moves.clear()
                self.change(lambda it: it._replace(slots=(Slot("a", 0, 0, ("b", 2)), *it.slots[1:])))

        self.engine.before = before
        self.assertEqual(one.ask(ADD, guard={"slots": [[0, 0, 0]]}, session="b"), ["-"])
        self.assertEqual(one.ask(ADD, guard={"slots": [[0, 0, 0]]}, session="b"), ["moved"])
        self.assertEqual([it[0] for it in one.commits()], ["a"])
        self.assertEqual(one.ask(ADD, guard={"frozen": [[0, 0, 0]]}, session="d")[0].split()[0], "commit")


class Bank(Cases):
    """Three stores of examples/four.job, whose slots are moved and whose outboxes are drained."""

    def setUp(self) -> None:
        """Makes them."""
        super().setUp()
        self.engine = Memory()
        text = files.read_bytes(f"{TOP}/examples/four.job").decode("latin-1").split("\nschedule\n")[0] + "\n"
        paths = {}
        for name in ("a", "b", "c"):
            paths[name] = self.path(f"bank-{name}")
            self.new("new2", paths[name], "65536", "1", "1f", "2", "1f")
        setup.make(self.engine, text, paths, 3)
        self.stores = {name: Near(self.primary(f"p-{name}", name)) for name in paths}
        table = lambda _: {
            "table": [list(it) for it in Config.read(self.engine).slots],
            "stores": ["a", "b", "c"],
        }  # noqa: E731
        nodes = SimpleNamespace(any=table)
        self.cluster = cast(Cluster, SimpleNamespace(nodes=nodes, store=lambda name: self.stores[name]))

    def balance(self, key: int) -> int:
        """What a key's account has."""
        slot = Config.read(self.engine).slots[key]
        return self.stores[slot.store].primary.word(1, slot.place * 256)

    def move(self, slot: int, store: str, settle: Callable[[int], None]) -> None:
        """Moves a slot."""
        records = [Records.of("account", "balance u4", segment=1, size=256, count=16)]
        Move(self.engine, self.cluster, slot, store, records, 1).work(settle)

    def test_letters(self) -> None:
        """A letter that was handed on and not noted as sent isn't handed on again where its slot was moved."""
        self.stores["a"].tried([Run("deposit", (100, 0)), Run("send", (30, 0, 1))])
        box = Outbox(self.cluster)

        class Stopped(Exception):
            """Who drains is killed."""

        def stopped(store: str, requests: List[Request], guard: Dict[str, Any]) -> List[Optional[Ended]]:
            """What is noted as sent isn't noted."""
            if requests == [Run("sent", (1,))]:
                raise Stopped
            return self.stores[store].tried(requests, None, guard)

        setattr(box, "tried", stopped)
        with self.assertRaises(Stopped):
            box.drain()
        self.assertEqual(self.balance(1), 30)
        self.move(1, "c", Outbox(self.cluster).settle)
        self.assertEqual(Config.read(self.engine).slots[1], Slot("c", 1, 1))
        Outbox(self.cluster).drain()
        self.assertEqual((self.balance(0), self.balance(1)), (70, 30))

    def test_frozen(self) -> None:
        """What is asked of a slot while it is moved isn't lost: it isn't done."""
        self.stores["a"].tried([Run("deposit", (100, 0))])
        ends: List[Any] = []

        def between(slot: int) -> None:
            """A deposit, and then the copy."""
            ends.extend(self.stores["a"].tried([Run("deposit", (5, 0))], None, {"slots": [[0, 0, 0]]}))

        self.move(0, "b", between)
        self.assertEqual((ends, self.balance(0)), ([None], 100))
        self.assertEqual(self.stores["a"].tried([Run("deposit", (5, 0))], None, {"slots": [[0, 0, 0]]}), [None])
        after = self.stores["b"].tried([Run("deposit", (5, 256))], None, {"slots": [[0, 1, 1]]})
        self.assertEqual((of(after[0]).word, self.balance(0)), ("commit", 105))


class Near:
    """A store of a cluster, asked without a network."""

    def __init__(self, primary: Primary) -> None:
        self.primary, self.count = primary, 0

    @property
    def segments(self) -> Dict[int, int]:
        """The bytes of each segment."""
        return dict(self.primary.term.content.segments)

    def tried(
        self, requests: List[Request], name: Optional[str] = None, guard: Optional[Dict[str, Any]] = None
    ) -> List[Optional[Ended]]:
        """Runs requests to their ends."""
        at, self.count = self.count, self.count + len(requests)
        for _ in range(2):
            self.primary.told.clear()
            self.primary.ask(*requests, session="near", at=at, guard=guard)
            found = dict(self.primary.told)
            if len(found) == len(requests):
                break
        ends = [found[f"near.{at + place}"] for place in range(len(requests))]
        return [end if end.form else None for end in ends]

    def look(self, ranges: List[Any], guard: Optional[Dict[str, Any]] = None) -> Tuple[int, List[bytes]]:
        """Bytes."""
        answers: List[Any] = []
        reader = Reader(self.primary.term)
        content = self.primary.term.content
        reader._answer([(guard or {}, lambda: {"bytes": [content.bytes_at(*it) for it in ranges]}, answers.append)])
        if "moved" in answers[0]:
            raise Moved("they aren't here")
        return content.number, answers[0]["bytes"]


class Histories(Cases):
    """The history, and who has another."""

    def test_audit(self) -> None:
        """The program says yes of it."""
        one = self.primary()
        one.ask(ADD, NO, ADD, Apply((Word(1, 256, 0xFFFFFFFF, 10),), (Word(1, 512, 255, 7),)))
        for place in range(60):
            one.ask(ADD, session="b", at=place)
        first, last, found = audit_store(self.program, self.engine, "a", None)
        self.assertEqual((first, last, found.yes, found.no, found.terms), (0, 63, 63, None, 1))

    def test_put_back(self) -> None:
        """Where the engine was put back to a backup the copy is made anew, and the file that has more is set aside."""
        one = self.primary()
        one.ask(ADD)
        backup = self.engine.state()
        two = self.primary("n2")
        two.ask(ADD, session="b")
        one.follow()
        one.replica.save(now=True)
        self.assertEqual(one.replica.number, 2)
        one.end()
        self.engine.put_back(backup)
        three = self.primary("n3")
        three.ask(Run("add", (512, 1)), Run("add", (512, 1)), session="c")
        one.follow()
        self.assertEqual((one.replica.number, one.replica.sum), (3, three.term.sum))
        self.assertEqual(Content(of(one.replica.held).image()).bytes_at(1, 256, 4), (5).to_bytes(4, "big"))
        aside = [it for it in os.listdir(self.path("n1")) if it.startswith("a.other-2-")]
        self.assertEqual(len(aside), 1)

    def test_many(self) -> None:
        """A copy that begins with an old image reads more and more of small entries at once, and says whether it is
        far behind; where the engine doesn't answer it reads few again."""
        one = self.primary()
        for place in range(60):
            one.ask(ADD, session="b", at=place)
        copy = Replica(self.engine, self.program, "a", self.path("n1"), one.replica.cluster, lambda said: None)
        copy.install()
        with mock.patch.object(replica_module, "BEHIND", 59):
            self.assertTrue(copy.is_behind())
        self.assertFalse(copy.is_behind())
        numbers = []
        while copy.follow():
            numbers.append((copy.number, copy.most))
        self.assertEqual(numbers, [(16, 32), (48, 64), (60, 16)])
        copy.most = 64
        with mock.patch.object(self.engine, "range", side_effect=etcd.EngineFault("too much")):
            self.assertRaises(etcd.EngineFault, copy.follow)
        self.assertEqual(copy.most, 16)

    def test_file_of_another(self) -> None:
        """A file of another history that is there at the start is set aside too, and one of this history isn't."""
        one = self.primary()
        one.ask(ADD)
        one.follow()
        one.replica.save(now=True)
        again = self.primary("n1")
        self.assertEqual([it for it in os.listdir(self.path("n1")) if "other" in it], [])
        again.end()
        note = json.loads(files.read_bytes(self.path("n1/a.at")))
        files.write_whole(self.path("n1/a.at"), json.dumps({**note, "sum": "0" * 64}).encode())
        self.primary("n1")
        self.assertEqual(len([it for it in os.listdir(self.path("n1")) if "other" in it]), 1)


class Made(Cases):
    """How a cluster is made."""

    def test_again(self) -> None:
        """One whose making broke off is made by the next call, and of other files it isn't."""
        engine = Memory()
        losing = [True]

        def before(compares: List[Part], deeds: List[Part]) -> None:
            """The last call has no answer."""
            if losing and deeds[0].get("request_put", {}).get("key") == etcd.text64(CONFIG):
                raise Lost(False)

        engine.before = before
        with self.assertRaises(etcd.EngineFault):
            setup.make(engine, PROGRAMS, {"a": self.second}, 4)
        losing.clear()
        with self.assertRaises(Failure) as raised:
            setup.make(engine, PROGRAMS, {"a": self.first}, 4)
        self.assertIn("another store a already", str(raised.exception))
        setup.make(engine, PROGRAMS, {"a": self.second}, 4)
        self.assertEqual(Config.read(engine).stores, ("a",))
        with self.assertRaises(Failure):
            setup.make(engine, PROGRAMS, {"a": self.second}, 4)


class Begins(Cases):
    """A term whose copy doesn't come to the history's end."""

    def test_not_at_head(self) -> None:
        """It doesn't begin."""
        self.primary().ask(ADD)
        folder = self.path("n2")
        os.makedirs(folder)
        replica = Replica(self.engine, self.program, "a", folder, "c", lambda said: None)
        replica.install()
        with self.assertRaises(Deposed):
            Term(
                replica,
                self.engine,
                1,
                lambda: False,
                lambda asked, end: None,
                lambda asked, failure: None,
                lambda: None,
            )


if __name__ == "__main__":
    unittest.main()
