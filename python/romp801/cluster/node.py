"""A node: a process that has a copy of each store of a cluster, and serves those whose primary it is."""
from __future__ import annotations

import asyncio
import contextlib
import json
import os
import sys
import threading
import time
from typing import Any, NamedTuple, Optional

from romp801 import files, program
from romp801.errors import Failure
from romp801.cluster.engine import Engine, EngineFault
from romp801.cluster.keeper import Keeper, Serving
from romp801.cluster.keys import CONFIG, STORES, Config, store_of
from romp801.cluster.safety import Safety, address
from romp801.cluster.table import Late, Old, Who
from romp801.cluster.term import Order
from romp801.listener import LONGEST, Client, Lines, mistaken
from romp801.report import Ended
from romp801.request import request_of
from romp801.server import bytes_of

LEAVES = 3
"""Times that a node that ends tries to give its lease back."""
GREETING = 10.0
"""Seconds within which a client says the secret."""
QUIET = 5.0
"""Seconds between two lines on standard error that the engine doesn't answer."""


class Options(NamedTuple):
    """What a node is told."""

    name: str
    folder: str
    listen: str
    lease: int = 3
    save: float = 5.0
    image_every: int = 20000
    slack: int = 2000


class Port(Lines):
    """The clients of a node."""

    def __init__(self, node: Node, safety: Safety) -> None:
        super().__init__()
        self.node, self.safety = node, safety

    async def greet(self, client: Client, reader: asyncio.StreamReader) -> bool:
        """Whether a client is let in: by its certificate, or by the secret in its first line."""
        certificate = client.writer.get_extra_info("peercert")
        if self.safety.lets_in(certificate, None):
            return True
        with contextlib.suppress(asyncio.TimeoutError, ValueError):
            line = await asyncio.wait_for(reader.readline(), GREETING)
            told = json.loads(line)
            if isinstance(told, dict) and self.safety.lets_in(None, told.get("secret")):
                client.put({"tag": told.get("tag"), "hello": self.node.options.name})
                return True
        client.put({"tag": None, "error": "neither a certificate nor the secret was shown"})
        return False

    async def message(self, client: Client, tag: Any, message: dict[str, Any]) -> None:
        """Answers a message, or has it wait."""
        if "hello" in message:
            client.put({"tag": tag, "hello": self.node.options.name})
        elif "status" in message:
            client.put({"tag": tag, **self.node.status()})
        elif "table" in message:
            config = await self.node.loop.run_in_executor(None, Config.read, self.node.engine)
            client.put({"tag": tag, "table": config.slots, "stores": config.stores})
        else:
            keeper = self.node.keepers.get(message["store"])
            if not self.node.has_begun:
                client.put({"tag": tag, "elsewhere": None})
                return
            if keeper is None:
                raise mistaken(f"there is no store {message['store']}: there are {', '.join(self.node.keepers)}")
            serving = keeper.serving
            if serving is None:
                client.put({"tag": tag, "elsewhere": keeper.primary["at"] if keeper.primary else None})
            else:
                await self._serve(client, tag, serving, message)

    async def _serve(self, client: Client, tag: Any, serving: Serving, message: dict[str, Any]) -> None:
        """A message for a store whose primary this node is."""
        term, at = serving.term, message.get("at")
        now = {"at": serving.moment(), "number": term.content.number}
        if "stat" in message:
            client.put({"tag": tag, "segments": term.content.segments, **now})
        elif at is None or at[0] != term.created or term.seen.is_stale(at[1]):
            # (it may be an old copy of one that was answered)
            client.put({"tag": tag, "moment": True, **now})
        elif "read" in message:
            await self._read(client, tag, serving, message)
        elif "answered" in message:
            who = Who.of(message["answered"])
            await self._look(client, tag, serving, {}, lambda: _told(serving, who) or {"end": None})
        elif "run" in message or "write" in message:
            who, request = Who.of(message["who"]), request_of(message)
            term.front.check(request, term.content.segments)
            order = Order(who, _guard(message))
            await serving.waiting.wait(client, tag, who.name, request, lambda: _told(serving, who), order)
        else:
            raise mistaken("a request has `run`, `write`, `read`, `answered`, `stat`, `table`, `status` or `hello`")

    async def _read(self, client: Client, tag: Any, serving: Serving, message: dict[str, Any]) -> None:
        """Bytes of one moment."""
        content, ranges = serving.term.content, message["read"]
        bytes_of(content, ranges)

        def look() -> dict[str, Any]:
            """The bytes, and of which number they are."""
            found = serving.term.content
            return {"number": found.number, "bytes": bytes_of(found, ranges)}

        await self._look(client, tag, serving, _guard(message), look)

    async def _look(self, client: Client, tag: Any, serving: Serving, guard: dict[str, Any], look: Any) -> None:
        """Has something looked at behind a call of the engine."""
        await client.room.acquire()

        def put(answer: Any) -> None:
            """Answers."""
            client.put({"tag": tag, **answer})
            client.room.release()

        def tell(answer: Any) -> None:
            """Has it answered by the loop's thread."""
            self.node.loop.call_soon_threadsafe(put, answer)

        serving.reader.ask(guard, look, tell)


def _guard(message: dict[str, Any]) -> dict[str, Any]:
    """The slots that a message names."""
    return {part: message[part] for part in ("slots", "frozen", "filled") if part in message}


def _told(serving: Serving, who: Who) -> Optional[dict[str, Any]]:
    """What is told of a request that has come to something already."""
    found = serving.term.find(who)
    if isinstance(found, Ended):
        return dict(serving.answer(found))
    if isinstance(found, Old):
        return {"error": "this request was answered before"}
    return {"late": True, "number": serving.term.content.number} if isinstance(found, Late) else None


class Node:
    """The process."""

    def __init__(self, engine: Engine, romp801: program.Program, safety: Safety, options: Options) -> None:
        self.engine, self.program, self.safety, self.options = engine, romp801, safety, options
        self.token = f"{options.name}-{os.getpid()}-{os.urandom(4).hex()}"
        self.lease: Optional[int] = None
        self.keepers: dict[str, Keeper] = {}
        self.whispered, self.has_begun, self.is_leaving = 0.0, False, False
        safety.look_at_port(options.listen)
        safety.look_at_engine(engine)
        self.held = files.hold_folder(options.folder)

    def say(self, said: str) -> None:
        """A line on standard error, if somebody reads it."""
        with contextlib.suppress(OSError):
            print(f"cluster: {self.options.name}: {said}", file=sys.stderr, flush=True)

    def whisper(self, said: str) -> None:
        """The same, but seldom."""
        if time.monotonic() > self.whispered + QUIET:
            self.whispered = time.monotonic()
            self.say(said)

    def _begin(self) -> None:
        """Takes what the engine says of the cluster, when it answers."""
        config: Optional[Config] = None
        while config is None:
            if self.is_leaving:
                return
            try:
                config = Config.read(self.engine)
            except EngineFault as fault:
                self.whisper(str(fault))
                time.sleep(0.2)
        self.cluster = config.cluster
        self.keepers = {name: Keeper(self, name) for name in config.stores}
        self.has_begun = True
        for keeper in self.keepers.values():
            keeper.start()
        for work in (self._lease_loop, self._watch_loop):
            threading.Thread(target=work, daemon=True).start()

    def _lease_loop(self) -> None:
        """Has a lease until the node ends, and says since when there is none."""
        lease, until = None, 0.0
        while not self.is_leaving:
            now = time.monotonic()
            try:
                if lease is None:
                    lease = self.engine.grant(self.options.lease)
                    self.lease = None if self.is_leaving else lease
                    until = now + self.options.lease
                elif self.engine.keep(lease) > 0:
                    until = now + self.options.lease
                else:
                    lease = self.lease = None
                    continue
            except EngineFault as fault:
                self.whisper(str(fault))
            if lease is not None and time.monotonic() > until:
                lease = self.lease = None
            time.sleep(self.options.lease / 4)

    def _watch_loop(self) -> None:
        """Wakes who has something to look at; and stores that were added are taken in."""

        def tell(key: bytes) -> None:
            """A key was changed."""
            keeper = self.keepers.get(store_of(key)) if key.startswith(STORES) else None
            if key == CONFIG:
                self._take_in()
            elif keeper is not None:
                (keeper.wake if key == keeper.keys.primary else keeper.wake_follow).set()

        while True:
            with contextlib.suppress(EngineFault):
                self._take_in()
            self.engine.watch(STORES[: -len(b"s/")], tell)
            time.sleep(0.1)

    def _take_in(self) -> None:
        """Takes in stores that were added."""
        for name in Config.read(self.engine).stores:
            if name not in self.keepers:
                keeper = Keeper(self, name)
                self.keepers[name] = keeper
                keeper.start()

    def status(self) -> dict[str, Any]:
        """What the node does."""
        return {"node": self.options.name, "stores": {name: it.status() for name, it in self.keepers.items()}}

    def leave(self) -> None:
        """Ends: the others needn't wait for the lease's end, and it has no other lease any more."""
        self.is_leaving = True
        lease, self.lease = self.lease, None
        for _ in range(LEAVES):
            with contextlib.suppress(EngineFault):
                if lease is not None:
                    self.engine.revoke(lease)
                return

    async def serve(self, stop: asyncio.Event) -> None:
        """Serves until it is told to stop."""
        self.loop = asyncio.get_running_loop()
        host, at = address(self.options.listen)
        port = Port(self, self.safety)
        try:
            listener = await asyncio.start_server(port.serve, host, at, limit=LONGEST, ssl=self.safety.answers())
        except OSError as error:
            raise Failure(f"{self.options.listen} can't be listened at: {error.strerror or error}") from error
        begun = self.loop.run_in_executor(None, self._begin)
        waits: list[asyncio.Future[Any]] = [begun, asyncio.ensure_future(stop.wait())]
        await asyncio.wait(waits, return_when=asyncio.FIRST_COMPLETED)
        if begun.done():
            begun.result()
            await stop.wait()
        listener.close()
        await self.loop.run_in_executor(None, self.leave)
        for keeper in self.keepers.values():
            await self.loop.run_in_executor(None, keeper.replica.save, True)
