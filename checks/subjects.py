"""What checks/hunt runs: the scripts of tools/ and the launcher's words, with the model that each is held against.

A subject makes the files that it finds, says its words, and looks at what has to hold behind a run that something
happened to, and behind the next.
"""
import fcntl
import os
import random
import re
import shutil
from typing import Dict, List, Optional, Sequence, Type

import rig


class Place:
    """The folder of a run, with the program under test."""

    def __init__(self, program: str, launcher: str, folder: str, found: rig.Found, order: random.Random) -> None:
        self.program, self.launcher, self.folder, self.found = program, launcher, folder, found
        self.order = order       # what is left to chance
        self.what = ""
        self.numbers: Dict[bytes, Optional[int]] = {}

    def file(self, name: str) -> str:
        """A file of the run."""
        return f"{self.folder}/{name}"

    def expect(self, holds: bool, what: str) -> None:
        """Notes whether something holds of this case."""
        self.found.expect(holds, f"{self.what}: {what}")

    def whole(self, name: str) -> Optional[int]:
        """The number of a whole store; None of what is none, or isn't there. The program is asked once of the same
        bytes."""
        if not os.path.exists(self.file(name)):
            return None
        data = self.data(name)
        if data not in self.numbers:
            self.numbers[data] = rig.whole(self.program, self.file(name))
        return self.numbers[data]

    def data(self, name: str) -> bytes:
        """What a file has."""
        with open(self.file(name), "rb") as file:
            return file.read()

    def put(self, name: str, data: bytes) -> None:
        """Makes a file."""
        with open(self.file(name), "wb") as file:
            file.write(data)

    def new(self, name: str, commits: int, words: Sequence[str] = ("new", "4096", "1", "1")) -> None:
        """Makes a store with so many commits."""
        rig.call([self.program, words[0], self.file(name), *words[1:]])
        if commits:
            rig.call([self.program, "run", self.file(name)], rig.adds(commits))

    def quiet(self) -> None:
        """Waits until what a killed run left has ended, and gave the locks back."""
        for name in ("store", "standby", "other"):
            if os.path.isfile(self.file(name)):
                with open(self.file(name), "rb") as file:
                    fcntl.flock(file, fcntl.LOCK_EX)


class Subject:
    """Something that is run: what it finds, its words, and what has to hold behind it."""
    name = ""
    good: Sequence[int] = (0,)   # its statuses where nothing is wrong
    bad: Sequence[int] = (3,)    # where something failed
    source: bytes = b""
    is_writing = True
    calls: Sequence[str] = ()    # words with which it calls the program on the run's files
    goes_on = False              # whether it may be called again, over what a kill left
    ends_when_well = True        # whether nothing is left to be done when a call ended well
    is_same = True               # whether it finds the same files each time
    is_script = True             # whether it is a script of tools/

    def prepare(self, it: Place) -> None:
        """Makes the files that it finds."""
        it.new("store", 3)

    def words(self, it: Place) -> List[str]:
        """Its words."""
        raise NotImplementedError

    def behind(self, it: Place, done: rig.Done) -> None:
        """What has to hold when it has ended, with a fault."""

    def again(self, it: Place) -> None:
        """A next call, and what has to hold behind that."""


def tool(name: str, *words: str) -> List[str]:
    """A script of tools/ with its words."""
    return [str(rig.TOP / "tools" / name), *words]


class Work(Subject):
    """A list of transactions: each is done once, whatever happened."""
    name, calls, goes_on = "work", ("run", "ship"), True
    count = 4

    def __init__(self) -> None:
        self.list: List[str] = []
        self.told: Dict[int, str] = {}   # the line that was put for each line of the list

    def prepare(self, it: Place) -> None:
        it.new("store", 0)
        it.put("programs", rig.FRONT.encode())
        self.list, self.told = ["add5"] * self.count, {}
        self.put_list(it)

    def put_list(self, it: Place) -> None:
        """Makes the file of the list."""
        it.put("list", "".join(f"{line}\n" for line in self.list).encode())

    def words(self, it: Place) -> List[str]:
        return tool("work", it.file("store"), it.file("programs"), it.file("list"))

    def commits(self) -> int:
        """How many of the list commit."""
        return self.list.count("add5")

    def take(self, it: Place, done: rig.Done) -> None:
        """Takes what a call put: a line has one end, whoever tells it."""
        for line in done.out.splitlines():
            found = re.match(r"(\d+) \S+: ", line)
            if found:
                was = self.told.setdefault(int(found[1]), line)
                it.expect(was == line, f"told as {was!r}, and then as {line!r}")

    def behind(self, it: Place, done: rig.Done) -> None:
        self.take(it, done)
        number = it.whole("store")
        told = [int(found) for found in re.findall(r": commit (\d+) ", done.out)]
        it.expect(number is not None and number <= self.commits(), f"the store has {number} of {self.commits()}")
        it.expect(max(told, default=0) <= (number or 0), f"told {told}, and the store has {number}")

    def again(self, it: Place) -> None:
        wanted = int(self.commits() < len(self.list))
        for _ in range(2):
            done = rig.call(self.words(it), environment={"ROMP801": it.program})
            self.take(it, done)
            number = it.whole("store")
            it.expect(done.status == wanted and number == self.commits(),
                      f"called again: {done.told()}, the store has {number} of {self.commits()}")
        self.at_the_end(it)

    def at_the_end(self, it: Place) -> None:
        """Each line ended once, as it was told, with a commit of its own or with what its program does."""
        ended = rig.call([*self.words(it), "--ended"], environment={"ROMP801": it.program}).out.splitlines()
        wanted = [f"{place} {line}: {'commit ' if line == 'add5' else 'check '}"
                  for place, line in enumerate(self.list, 1)]
        it.expect(len(ended) == len(wanted) and all(map(str.startswith, ended, wanted)), f"what ended: {ended[-5:]}")
        numbers = sorted(int(line.split()[3]) for line in ended if ": commit " in line)
        it.expect(numbers == list(range(1, self.commits() + 1)), f"the numbers of the commits: {numbers[-5:]}")
        strange = set(self.told.values()) - set(ended)
        it.expect(not strange, f"told, and not kept: {sorted(strange)[-5:]}")
        it.expect(os.listdir(it.file("store.work")) == ["progress"],
                  f"what is left: {os.listdir(it.file('store.work'))}")


class WorkOn(Work):
    """The same list, gone on with after a kill in its middle."""
    name = "work, called again"

    def prepare(self, it: Place) -> None:
        super().prepare(it)
        # (a program that is killed behind its second commit)
        killed = f"strace -o /dev/null -e inject=fdatasync:signal=KILL:when=6 {it.program}"
        it.put("wrap", f"#!/bin/sh\n[ \"$1\" != run ] || exec {killed} \"$@\"\nexec {it.program} \"$@\"\n".encode())
        os.chmod(it.file("wrap"), 0o755)
        self.take(it, rig.call(self.words(it), environment={"ROMP801": it.file("wrap")}))


class WorkLong(Work):
    """A long list with such as give up, with a standby and each job kept, by chance; for kills alone."""
    name, good, is_same = "work, a long list", (0, 1), False
    gives_up = "program no\n.window 1, 1, rw\ncau r6, r0, 0x1000\nst r3, 0(r6)\nsvc 2\nend\n"

    def prepare(self, it: Place) -> None:
        super().prepare(it)
        it.put("programs", (rig.FRONT + self.gives_up).encode())
        self.list = [it.order.choice(["add5"] * 7 + ["no"]) for _ in range(it.order.choice([20, 60, 200, 600]))]
        self.put_list(it)
        after = f"{tool('catch-up')[0]} {it.file('store')} {it.file('standby')}"
        options = (["--checkpoint"], ["--in-order"], ["--keep", it.file("jobs")], ["--after", after])
        self.more = [word for some in options if it.order.random() < 0.4 for word in some]

    def words(self, it: Place) -> List[str]:
        return [*super().words(it), *self.more]

    def at_the_end(self, it: Place) -> None:
        super().at_the_end(it)
        store, standby = it.whole("store"), it.whole("standby")
        it.expect("--after" not in self.more or standby == store, f"the standby has {standby}, the store {store}")
        jobs = sorted(os.listdir(it.file("jobs"))) if "--keep" in self.more else []
        for place, job in enumerate(jobs):
            closing = f"jobs/{jobs[place + 1]}/opening" if place + 1 < len(jobs) else "store"
            parts = [it.file(f"jobs/{job}/{part}") for part in ("job", "report", "opening")]
            done = rig.call(tool("audit", *parts, it.file(closing)), environment={"ROMP801": it.program})
            it.expect(done.status == 0, f"the audit of {job}: {done.told()}")


class Once(Subject):
    """What is asked under names and a ticket, from Python: each is done once, and has one answer."""
    name, calls, goes_on = "once", ("run", "ship"), True
    commits = 4

    def __init__(self) -> None:
        self.told: Dict[str, str] = {}   # the end that was put for each

    def prepare(self, it: Place) -> None:
        it.new("store", 0)
        it.put("programs", rig.FRONT.encode())
        self.told = {}

    def words(self, it: Place) -> List[str]:
        return [str(rig.TOP / "checks/once"), it.file("store"), it.file("programs")]

    def take(self, it: Place, done: rig.Done) -> None:
        """Takes what a call put."""
        for line in done.out.splitlines():
            who, _, end = line.partition(" commit ")
            was = self.told.setdefault(who, end)
            it.expect(was == end, f"{who} was told as {was!r}, and then as {end!r}")

    def behind(self, it: Place, done: rig.Done) -> None:
        self.take(it, done)
        number = it.whole("store")
        told = [int(end.split()[0]) for end in self.told.values()]
        it.expect(number is not None and max(told, default=0) <= number <= self.commits,
                  f"told {told}, and the store has {number} of {self.commits}")

    def again(self, it: Place) -> None:
        for _ in range(2):
            done = rig.call(self.words(it), environment={"ROMP801": it.program})
            self.take(it, done)
            number = it.whole("store")
            it.expect(done.status == 0 and number == self.commits and len(self.told) == self.commits,
                      f"called again: {done.told()}, the store has {number} of {self.commits}")
        kept = sorted(os.listdir(it.file("store.ledger")))
        it.expect(len(kept) == 2 and kept[0] == "log", f"what is left: {kept}")
        size = os.path.getsize(it.file("store.ledger/log"))
        it.expect(size < 10000 + 2 * (1 << 18), f"the log has {size} bytes")


class CatchUp(Subject):
    """A standby that is behind: it is what it was or further on, and then as far as its store."""
    name, behind_at, goes_on = "catch-up", 1, True
    calls: Sequence[str] = ("ship", "follow")

    def prepare(self, it: Place) -> None:
        it.new("store", 1)
        if self.behind_at:
            shutil.copy(it.file("store"), it.file("standby"))
        rig.call([it.program, "run", it.file("store")], rig.adds(2))

    def words(self, it: Place) -> List[str]:
        return tool("catch-up", it.file("store"), it.file("standby"))

    def behind(self, it: Place, done: rig.Done) -> None:
        it.expect(it.whole("store") == 3, f"the store has {it.whole('store')} of 3")
        number = it.whole("standby")
        is_absent = not os.path.exists(it.file("standby")) and not self.behind_at
        it.expect(is_absent or (number is not None and self.behind_at <= number <= 3), f"the standby has {number}")
        it.expect(done.status != 0 or number == 3, f"it ended well, and the standby has {number}")

    def again(self, it: Place) -> None:
        done = rig.call(self.words(it), environment={"ROMP801": it.program})
        it.expect(done.status == 0 and it.whole("standby") == 3,
                  f"called again: {done.told()}, the standby has {it.whole('standby')}")


class CatchUpNew(CatchUp):
    """A standby that isn't there yet."""
    name, behind_at, calls = "catch-up, the first time", 0, ("ship",)


class Move(Subject):
    """What a store has, moved into a larger one."""
    name, calls, goes_on = "move", ("run",), True

    def prepare(self, it: Place) -> None:
        it.new("store", 3)
        it.new("other", 0, ("new2", "4096", "1", "2f"))

    def words(self, it: Place) -> List[str]:
        return tool("move", it.file("store"), it.file("other"))

    def behind(self, it: Place, done: rig.Done) -> None:
        it.expect(it.whole("store") == 3, f"the store has {it.whole('store')} of 3")
        total = rig.sum_of(it.program, it.file("other"))
        it.expect(total == 15 or (done.status != 0 and total == 0), f"the other has {total}, with status {done.status}")

    def again(self, it: Place) -> None:
        done = rig.call(self.words(it), environment={"ROMP801": it.program})
        total = rig.sum_of(it.program, it.file("other"))
        it.expect(done.status == 0 and total == 15, f"called again: {done.told()}, the other has {total}")


class Backup(Subject):
    """A copy over an older one."""
    name, goes_on, ends_when_well = "backup", True, False

    def prepare(self, it: Place) -> None:
        it.new("store", 1)
        rig.call(tool("backup", it.file("store"), it.file("copy")), environment={"ROMP801": it.program})
        rig.call([it.program, "run", it.file("store")], rig.adds(2))

    def words(self, it: Place) -> List[str]:
        return tool("backup", it.file("store"), it.file("copy"))

    def behind(self, it: Place, done: rig.Done) -> None:
        copy = it.whole("copy")
        it.expect(it.whole("store") == 3 and copy in (1, 3), f"the store has {it.whole('store')}, the copy {copy}")
        it.expect(done.status != 0 or copy == 3, f"it ended well, and the copy has {copy}")

    def again(self, it: Place) -> None:
        back = rig.call(tool("restore", it.file("copy"), it.file("back")), environment={"ROMP801": it.program})
        it.expect(it.whole("back") in (1, 3) if back.status == 0 else back.status in (1, 3),
                  f"a restore of it: {back.told()}, with {it.whole('back')}")
        done = rig.call(self.words(it), environment={"ROMP801": it.program})
        it.expect(done.status == 0 and it.whole("copy") == 3,
                  f"called again: {done.told()}, the copy has {it.whole('copy')}")


class Restore(Subject):
    """A copy in the place of a store, which is kept."""
    name, goes_on, ends_when_well = "restore", True, False

    def __init__(self) -> None:
        self.keeps = 0

    def prepare(self, it: Place) -> None:
        it.new("store", 1)
        rig.call(tool("backup", it.file("store"), it.file("copy")), environment={"ROMP801": it.program})
        rig.call([it.program, "run", it.file("store")], rig.adds(2))

    def words(self, it: Place) -> List[str]:
        # (what is replaced once more is kept under another name)
        self.keeps += it.whole("store") == 1
        return tool("restore", it.file("copy"), it.file("store"), "--keep", it.file(f"kept.{self.keeps}"))

    def behind(self, it: Place, done: rig.Done) -> None:
        store, kept = it.whole("store"), [it.whole(f"kept.{place}") for place in range(self.keeps + 1)]
        it.expect(it.whole("copy") == 1 and store in (1, 3), f"the store has {store}, the copy {it.whole('copy')}")
        it.expect(store == 3 or kept[0] == 3, f"the store has {store}, and what is kept of it {kept}")
        for place, number in enumerate(kept):
            name = it.file(f"kept.{place}")
            if os.path.exists(name):
                it.expect(number == (1 if place else 3) and not os.path.samefile(name, it.file("store")),
                          f"what is kept has {kept}, or is the store")

    def again(self, it: Place) -> None:
        done = rig.call(self.words(it), environment={"ROMP801": it.program})
        it.expect(done.status == 0 and it.whole("store") == 1,
                  f"called again: {done.told()}, the store has {it.whole('store')}")


class Reading(Subject):
    """What only reads: it answers as ever or fails, and changes nothing."""
    is_writing, goes_on, ends_when_well = False, True, False
    wanted = ""

    def prepare(self, it: Place) -> None:
        it.new("opening", 0)
        shutil.copy(it.file("opening"), it.file("store"))
        it.put("job", rig.adds(3))
        it.put("report", rig.call([it.program, "run", it.file("store")], rig.adds(3)).out.encode())
        it.put("before", it.data("store"))

    def behind(self, it: Place, done: rig.Done) -> None:
        it.expect(it.data("store") == it.data("before"), "the store is another")
        it.expect(done.status not in self.good or self.wanted in done.out,
                  f"it ended well, and said {done.out[-200:]!r}")

    def again(self, it: Place) -> None:
        done = rig.call(self.words(it), environment={"ROMP801": it.program})
        it.expect(done.status in self.good and self.wanted in done.out, f"called again: {done.told()}")


class AfterKill(Reading):
    """The whole report of a run that was killed."""
    name, wanted = "after-kill", "commit 3 number 3"

    def prepare(self, it: Place) -> None:
        super().prepare(it)
        it.put("cut", b"".join(it.data("report").splitlines(True)[:5]))

    def words(self, it: Place) -> List[str]:
        return tool("after-kill", it.file("job"), it.file("cut"), it.file("opening"), it.file("store"))


class Audit(Reading):
    """Whether a report is that of its programs."""
    name, wanted = "audit", "audit yes commits 3"

    def words(self, it: Place) -> List[str]:
        return tool("audit", it.file("job"), it.file("report"), it.file("opening"), it.file("store"))


class Stat(Reading):
    """What a store is."""
    name, wanted = "stat", "number 3"

    def words(self, it: Place) -> List[str]:
        return tool("stat", it.file("store"))


class Ends(Reading):
    """Who didn't commit."""
    name, wanted = "ends", "3 commit"

    def words(self, it: Place) -> List[str]:
        return tool("ends", it.file("report"))


class Addresses(Reading):
    """The line of a program that an address is of."""
    name, wanted = "addresses", "cau"

    def words(self, it: Place) -> List[str]:
        return tool("addresses", it.file("job"), "add5", "00000000")


class Word(Subject):
    """One of the launcher's words."""
    bad, is_script = (2, 4, 5, 6, 7, 126), False

    def launch(self, it: Place, *words: str) -> List[str]:
        """The launcher with these words."""
        return [it.launcher, *words]


class Run(Word):
    """A job: what was told is kept, and at most one commit more."""
    name, source, goes_on, ends_when_well = "run", rig.adds(3), True, False

    def __init__(self) -> None:
        self.had = 0

    def prepare(self, it: Place) -> None:
        it.new("store", 2)

    def words(self, it: Place) -> List[str]:
        self.had = it.whole("store") or 0
        return self.launch(it, "run", it.file("store"))

    def behind(self, it: Place, done: rig.Done) -> None:
        told = self.had + done.out.count("\ncommit ")
        number = it.whole("store")
        it.expect(number is not None and told <= number <= told + (done.status != 0),
                  f"told up to {told}, the store has {number}")
        it.expect(done.status != 0 or number == self.had + 3 or "disk" in done.out,
                  f"it ended well, and the store has {number}, which had {self.had}")

    def again(self, it: Place) -> None:
        number = it.whole("store")
        done = rig.call(self.words(it), self.source)
        it.expect(done.status == 0 and it.whole("store") == (number or 0) + 3,
                  f"called again: {done.told()}, from {number} to {it.whole('store')}")


class Follow(Word):
    """A ship text: what was told is kept, and the same text goes on."""
    name, goes_on = "follow", True

    def __init__(self) -> None:
        self.had = 0

    def prepare(self, it: Place) -> None:
        it.new("store", 1)
        shutil.copy(it.file("store"), it.file("other"))
        rig.call([it.program, "run", it.file("other")], rig.adds(3))
        self.source = rig.call([it.program, "ship", it.file("other"), "0"]).out.encode()

    def words(self, it: Place) -> List[str]:
        self.had = it.whole("store") or 0
        return self.launch(it, "follow", it.file("store"))

    def behind(self, it: Place, done: rig.Done) -> None:
        told = max([self.had, *map(int, re.findall(r"kept (\d+)", done.out))])
        number = it.whole("store")
        it.expect(number is not None and told <= number <= told + (done.status != 0),
                  f"told {told}, the store has {number}")

    def again(self, it: Place) -> None:
        done = rig.call(self.words(it), self.source)
        it.expect(done.status == 0 and it.whole("store") == 4,
                  f"called again: {done.told()}, the store has {it.whole('store')}")


class Looking(Word):
    """What prints of a store and changes nothing: all of it where it ends well, else a front part."""
    is_writing, goes_on, ends_when_well = False, True, False
    tail: Sequence[str] = ()

    def prepare(self, it: Place) -> None:
        it.new("store", 3)
        it.put("before", it.data("store"))
        self.wanted = rig.call([it.program, self.name, it.file("store"), *self.tail]).out

    def words(self, it: Place) -> List[str]:
        return self.launch(it, self.name, it.file("store"), *self.tail)

    def behind(self, it: Place, done: rig.Done) -> None:
        it.expect(it.data("store") == it.data("before"), "the store is another")
        it.expect(done.out == self.wanted if done.status == 0 else self.wanted.startswith(done.out),
                  f"it printed {done.out[-200:]!r}")

    def again(self, it: Place) -> None:
        done = rig.call(self.words(it))
        it.expect(done.status == 0 and done.out == self.wanted, f"called again: {done.told()}")


class Show(Looking):
    """Bytes of a store."""
    name, tail = "show", ("1", "0", "2048")


class Ship(Looking):
    """Records of a store."""
    name, tail = "ship", ("0",)


class New(Word):
    """A new store: none, an empty file, or what no word takes for a store; and the whole one where it was told."""
    name = "new"
    made: Sequence[str] = ("new", "4096", "1", "1")

    def prepare(self, it: Place) -> None:
        pass

    def words(self, it: Place) -> List[str]:
        return self.launch(it, self.made[0], it.file("store"), *self.made[1:])

    def number(self) -> int:
        """The number of what is made."""
        return 0

    def behind(self, it: Place, done: rig.Done) -> None:
        if not os.path.exists(it.file("store")):
            it.expect(done.status != 0, "it ended well, and there is no store")
            return
        number = it.whole("store")
        if number is None:
            looked = rig.call([it.program, "show", it.file("store"), "1", "0", "4"])
            it.expect(done.status != 0 and looked.status == 2, f"what is left, looked at: {looked.told()}")
        else:
            it.expect(number == self.number(), f"the store has {number}")

    def again(self, it: Place) -> None:
        if os.path.exists(it.file("store")) and it.whole("store") is None and os.path.getsize(it.file("store")):
            refused = rig.call(self.words(it), self.source)
            it.expect(refused.status == 9, f"over what is left: {refused.told()}")
            os.remove(it.file("store"))
        if it.whole("store") is None:
            done = rig.call(self.words(it), self.source)
            it.expect(done.status == 0 and it.whole("store") == self.number(), f"called again: {done.told()}")


class New2(New):
    """A new store of version 2."""
    name, made = "new2", ("new2", "4096", "1", "1f")


class Renew(New):
    """A store of version 2 of one of version 1, which stays."""
    name, made = "renew", ("renew", "4096")

    def prepare(self, it: Place) -> None:
        it.new("other", 3)
        self.source = it.data("other")

    def number(self) -> int:
        return 3

    def behind(self, it: Place, done: rig.Done) -> None:
        super().behind(it, done)
        it.expect(it.data("other") == self.source, "the old store is another")


SUBJECTS: List[Type[Subject]] = [
    Work, WorkOn, Once, CatchUp, CatchUpNew, Move, Backup, Restore, AfterKill, Audit, Stat, Ends, Addresses,
    Run, Follow, Show, Ship, New, New2, Renew]
FOR_KILLS: List[Type[Subject]] = [*SUBJECTS, WorkLong]
