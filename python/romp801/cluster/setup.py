"""A cluster made, and changed: its stores, its programs, and which store has which slot of keys."""
from __future__ import annotations

import hashlib
import os
import re
from typing import Callable, Iterable, Mapping

from romp801 import files, program
from romp801.cluster import engine as etcd
from romp801.cluster.engine import Engine
from romp801.cluster.history import head_of
from romp801.cluster.image import Image
from romp801.cluster.keys import CONFIG, PROGRAMS, Config, Keys, Slot
from romp801.cluster.table import Table
from romp801.errors import NO, WRONG_USE, Failure
from romp801.request import Front

NAME = re.compile(r"[A-Za-z0-9_-]{1,60}")


def programs_of(romp801: program.Program, path: str) -> str:
    """The programs of a job, up to its schedule, which the program takes."""
    front = Front(files.read_bytes(path).decode("latin-1"))
    done = romp801.call("list", given=front.job([]))
    if program.refused_job(done):
        raise Failure(f"{path}: {program.ended(done.returncode, done.stderr)}", WRONG_USE)
    program.refused(done, path)
    return front.text


def put_programs(engine: Engine, text: str) -> str:
    """Puts programs; answers their sum."""
    data = text.encode("latin-1")
    total = hashlib.sha256(data).hexdigest()
    engine.put(PROGRAMS + total.encode(), data)
    return total


def named(pairs: Iterable[str]) -> dict[str, str]:
    """Stores with their files, of NAME=FILE."""
    found = {}
    for it in pairs:
        name, equals, path = it.partition("=")
        if not equals or not NAME.fullmatch(name) or name in found:
            raise Failure(f"{it} is no NAME=FILE, whose name is of letters, digits, - and _", WRONG_USE)
        found[name] = path
    return found


def put_store(engine: Engine, name: str, path: str) -> None:
    """Puts a store's first image, of a file; one that has it already, as of a call that broke off, has it."""
    keys = Keys(name)
    with files.locked(path) as file:
        image = files.read_all(file, path)
    number = files.sound(image, path).number
    total = hashlib.sha256(image).hexdigest()
    _, snap = Image(number, total, Table(number), image).put(engine, keys, f"made-{os.urandom(4).hex()}")
    if not engine.transaction(
        [etcd.is_created(keys.snap, 0), etcd.is_created(keys.head, 0)],
        [etcd.put(keys.snap, snap), etcd.put(keys.head, head_of(number, total))],
    ):
        head = engine.get(keys.head)
        if head is None or head.value != head_of(number, total):
            raise Failure(f"the engine has another store {name} already", NO)


def make(engine: Engine, text: str, stores: Mapping[str, str], slots: int) -> None:
    """Makes a cluster of these stores, whose slots are theirs in turn."""
    if engine.get(CONFIG) is not None:
        raise Failure("the engine has a cluster already", NO)
    for name, path in stores.items():
        put_store(engine, name, path)
    names = [*stores]
    table = tuple(Slot(names[it % len(names)], it // len(names), 0) for it in range(slots))
    config = Config(os.urandom(16).hex(), tuple(names), put_programs(engine, text), table, 0)
    if not engine.transaction([etcd.is_created(CONFIG, 0)], [etcd.put(CONFIG, config.raw())]):
        raise Failure("the engine has a cluster already", NO)


def change(engine: Engine, changed: Callable[[Config], Config]) -> Config:
    """Changes what holds for all stores, at one moment: between two jobs of each."""
    while True:
        config = Config.read(engine)
        other = changed(config)
        if other == config:
            return config
        try:
            if engine.transaction([etcd.is_changed(CONFIG, config.changed)], [etcd.put(CONFIG, other.raw())]):
                return Config.read(engine)
        except etcd.Unknown:
            pass
