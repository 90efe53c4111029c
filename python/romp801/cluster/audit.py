"""The history judged by the program: the commits of entries are those of their programs, one after another."""
from __future__ import annotations

from typing import Callable, Iterable, NamedTuple, Optional

from romp801 import program
from romp801.cluster import engine as etcd
from romp801.cluster.engine import Engine
from romp801.cluster.held import Held
from romp801.cluster.history import Entry, link, merged, read_head
from romp801.cluster.image import Image
from romp801.cluster.keys import Keys
from romp801.cluster.replica import ENTRIES, MERGED
from romp801.errors import Failure
from romp801.format import Store
from romp801.report import Finish, Open, written
from romp801.request import Front


class Audited(NamedTuple):
    """What came of it: how many commits an audit said yes of, the first thing that isn't so, or None, the store behind
    them, and the terms that they are of."""

    yes: int
    no: Optional[str]
    store: bytes
    terms: int


def audit(
    romp801: program.Program,
    fronts: Callable[[str], Front],
    opening: bytes,
    entries: Iterable[Entry],
    total: Optional[str],
) -> Audited:
    """Audits entries that go on from a store, with the sum there where it is known, in parts that a job has room
    for."""
    yes, number = 0, Store(opening).number
    terms: set[int] = set()
    part: list[Entry] = []

    def judged() -> Optional[str]:
        """The part at hand: None where it is sound."""
        nonlocal yes, opening, part
        no, opening = _part(romp801, fronts(part[0].programs), opening, part) if part else (None, opening)
        yes += 0 if no else sum(len(it.done) for it in part)
        part = []
        return no

    for entry in entries:
        if entry.first != number or total is not None and link(total, entry.text) != entry.sum:
            return Audited(yes, f"the entry at {entry.last} doesn't go on from {number}", opening, len(terms))
        number, total = entry.last, entry.sum
        terms.add(entry.term)
        if part and not _fits(fronts(entry.programs), [*part, entry]):
            no = judged()
            if no:
                return Audited(yes, no, opening, len(terms))
        part.append(entry)
    no = judged()
    return Audited(yes, no, opening, len(terms))


def _fits(front: Front, part: list[Entry]) -> bool:
    """Whether one job has room for these."""
    requests = [it.request for entry in part for it in entry.done]
    is_one = len({it.programs for it in part}) == 1 and sum(len(it.text) for it in part) < MERGED
    return is_one and front.batch(requests) == len(requests)


def _part(romp801: program.Program, front: Front, opening: bytes, part: list[Entry]) -> tuple[Optional[str], bytes]:
    """One part: what isn't so, or None, and the store behind it."""
    span = f"{part[0].first} to {part[-1].last}"
    held = Held(romp801, opening)
    try:
        done = held.call("follow", given=merged([it.text for it in part]))
        if done.returncode:
            return f"{span}: {program.ended(done.returncode, done.stderr)}", opening
        closing = held.image()
    finally:
        held.close()
    all_done = [it for entry in part for it in entry.done]
    numbers = [it.commit.number for it in all_done]
    if numbers != [*range(part[0].first + 1, part[-1].last + 1)]:
        return f"{span}: an entry doesn't tell of each of its numbers", closing
    from dataclasses import replace

    commits = [replace(it.commit, activation=place) for place, it in enumerate(all_done, 1)]
    report = written([Open(part[0].first), *commits, Finish(part[-1].last)])
    job = front.job([it.request for it in all_done])
    said = romp801.call("audit", given=program.bundle(job, report.encode(), opening, closing))
    if said.stdout != f"audit yes commits {len(commits)}\n".encode():
        return f"{span}: {(said.stdout + said.stderr).decode().strip()}", closing
    return None, closing


def entries_of(engine: Engine, keys: Keys, number: int, last: int) -> Iterable[Entry]:
    """The entries of the engine from a number on up to another."""
    while number < last:
        items = engine.range(keys.log(number + 1), etcd.end_of(keys.logs), ENTRIES)
        if not items:
            raise Failure(f"the engine has no entry behind {number}")
        for it in items:
            entry = Entry.of(it.value)
            number = entry.last
            yield entry
            if number >= last:
                return


def audit_store(
    romp801: program.Program, engine: Engine, name: str, opening: Optional[bytes]
) -> tuple[int, int, Audited]:
    """Audits what the engine keeps of a store, from its image on or from another store; answers from which number to
    which, and what came of it."""
    from romp801.cluster.term import front_of

    keys = Keys(name)
    total: Optional[str] = None
    if opening is None:
        image = Image.read(engine, keys)
        opening, total = image.store, image.sum
    head = engine.get(keys.head)
    if head is None:
        raise Failure(f"the engine has no store {name}")
    first, last = Store(opening).number, read_head(head.value)[0]
    known: dict[str, Front] = {}

    def fronts(of: str) -> Front:
        """Programs by their sum."""
        if of not in known:
            known[of] = front_of(engine, of)
        return known[of]

    return first, last, audit(romp801, fronts, opening, entries_of(engine, keys, first, last), total)
