"""Clients that send lines of JSON, and what they wait for. A served store and a node of a cluster have it in common.

Each line has a `tag`, and is answered by a line with the same one, in whatever order they end. A line may be a list of
such messages too; each is answered by itself. `{"tag": 1, "error": WHY}` says that a request can't be run, and
`{"tag": 1, "again": WHY}` that what came of it isn't known yet: it is asked again, under its name.
"""
from __future__ import annotations

import asyncio
import json
import threading
from typing import Any, Callable, Mapping, Optional

from romp801.errors import WRONG_USE, Failure
from romp801.report import Ended
from romp801.request import Asked, Request

LONGEST = 1 << 17
"""Bytes of a client's line, at most."""
WAITING = 1000
"""Requests of a client that aren't answered, at most: more aren't read before."""
CLIENTS = 1000
"""Clients at a time, at most."""


def mistaken(why: str) -> Failure:
    """A request that can't be run."""
    return Failure(why, WRONG_USE)


class Client:
    """One connection."""

    def __init__(self, writer: asyncio.StreamWriter) -> None:
        self.writer = writer
        self.room = asyncio.Semaphore(WAITING)
        self.lines: list[str] = []

    def put(self, answer: Mapping[str, Any]) -> None:
        """Sends a line, if somebody is there, with others that come at once."""
        self.lines.append(json.dumps(answer, separators=(",", ":")))
        if len(self.lines) == 1:
            asyncio.get_running_loop().call_soon(self.send)

    def send(self) -> None:
        """Sends the lines that there are."""
        lines, self.lines = self.lines, []
        if lines and not self.writer.is_closing():
            self.writer.write("".join(f"{line}\n" for line in lines).encode())


class Waiting:
    """Who waits for which request, by its name. A name that waits is run once, whoever asks; `answer` is what is told
    of an end, and `ask` hands on a request that nobody waits for."""

    def __init__(
        self,
        loop: asyncio.AbstractEventLoop,
        ask: Callable[[Asked], None],
        answer: Callable[[Ended], Mapping[str, Any]] = lambda end: {"end": str(end)},
    ) -> None:
        self.loop, self.ask, self.answer = loop, ask, answer
        self.waits: dict[str, list[tuple[Client, Any]]] = {}
        self.ended: list[tuple[str, Mapping[str, Any]]] = []
        self.lock = threading.Lock()
        self.closed: Optional[str] = None

    # of any thread

    def told(self, name: str, end: Ended) -> None:
        """A request ended. Many that end at once are taken together."""
        self.refused(name, self.answer(end))

    def refused(self, name: str, answer: Mapping[str, Any]) -> None:
        """Whoever waits for a request is answered so."""
        with self.lock:
            self.ended.append((name, answer))
            is_first = len(self.ended) == 1
        if is_first:
            self.loop.call_soon_threadsafe(self.take)

    def untold(self, asked: list[Asked], failure: Failure) -> None:
        """Of these nothing is known, or they can't be run."""
        word = "error" if failure.status == WRONG_USE else "again"
        for it in asked:
            self.refused(it.name, {word: str(failure)})

    # of the loop's thread

    def take(self) -> None:
        """Answers what ended."""
        with self.lock:
            ended, self.ended = self.ended, []
        for name, answer in ended:
            for client, tag in self.waits.pop(name, ()):
                client.put({"tag": tag, **answer})
                client.room.release()

    def close(self, why: str) -> None:
        """Nobody is answered any more: all are to ask again."""
        self.closed = why
        self.take()
        for name in [*self.waits]:
            for client, tag in self.waits.pop(name):
                client.put({"tag": tag, "again": why})
                client.room.release()

    async def wait(
        self,
        client: Client,
        tag: Any,
        name: str,
        request: Request,
        known: Callable[[], Optional[Mapping[str, Any]]],
        more: Any = None,
    ) -> None:
        """A request under its name, which waits. Where nobody waits for it and its answer is known, that is told."""
        await client.room.acquire()
        if name in self.waits:
            self.waits[name].append((client, tag))
            return
        found = known() if self.closed is None else {"again": self.closed}
        if found is not None:
            client.room.release()
            client.put({"tag": tag, **found})
            return
        self.waits[name] = [(client, tag)]
        self.ask(Asked(name, request, more))


class Lines:
    """The clients of a listener: each line is read, and answered by `message`."""

    def __init__(self) -> None:
        self.clients = 0

    async def message(self, client: Client, tag: Any, message: dict[str, Any]) -> None:
        """Answers a message, or has it wait."""
        raise NotImplementedError

    async def greet(self, client: Client, reader: asyncio.StreamReader) -> bool:
        """Whether a client is let in."""
        return True

    async def serve(self, reader: asyncio.StreamReader, writer: asyncio.StreamWriter) -> None:
        """Serves one client, until it goes."""
        client = Client(writer)
        self.clients += 1
        try:
            if self.clients > CLIENTS:
                client.put({"tag": None, "again": f"there are {CLIENTS} clients already"})
                return
            if not await self.greet(client, reader):
                return
            while True:
                line = await reader.readline()
                if not line.endswith(b"\n"):
                    return
                await self.line(client, line)
                await writer.drain()
        except ValueError:
            client.put({"tag": None, "error": f"a line has at most {LONGEST} bytes"})
        except (OSError, asyncio.CancelledError):
            pass
        finally:
            self.clients -= 1
            client.send()
            writer.close()

    async def line(self, client: Client, line: bytes) -> None:
        """Takes one line of a client: a message, or a list of some."""
        try:
            found = json.loads(line)
        except (ValueError, RecursionError) as error:
            client.put({"tag": None, "error": f"this is no request: {type(error).__name__} {error}"})
            return
        for message in found if isinstance(found, list) and found else [found]:
            await self._one(client, message)

    async def _one(self, client: Client, message: Any) -> None:
        """Takes one message."""
        tag = None
        try:
            if not isinstance(message, dict):
                raise mistaken("a line is an object of JSON, or a list of them")
            tag = message.get("tag")
            await self.message(client, tag, message)
        except Failure as failure:
            client.put({"tag": tag, "error": str(failure)})
        except (ValueError, TypeError, KeyError, AttributeError, IndexError) as error:
            client.put({"tag": tag, "error": f"this is no request: {type(error).__name__} {error}"})
