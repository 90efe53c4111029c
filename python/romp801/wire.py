"""A client's connection to whoever answers lines of JSON, each with the `tag` of its question (romp801.listener)."""
from __future__ import annotations

import json
import select
import socket
import ssl
from typing import Any, Iterator, Mapping, Optional, Tuple

from romp801.errors import Failure

PART = 1 << 16
"""Bytes that are sent or taken at once."""
WAITS = (BlockingIOError, ssl.SSLWantReadError, ssl.SSLWantWriteError)


class Wire:
    """An open connection, plain or by TLS. `seconds` without a byte are a TimeoutError."""

    def __init__(self, link: socket.socket, seconds: float) -> None:
        self.link, self.seconds = link, seconds
        self.left, self.tag = b"", 0
        link.setblocking(False)

    def ask(self, messages: Mapping[int, Mapping[str, Any]]) -> Iterator[Tuple[int, dict[str, Any]]]:
        """Sends messages, each under its key, and hands over their answers as they come. It reads while it sends: both
        may be long. Raises OSError where the other side has gone."""
        # (no tag comes twice: an answer to what was asked before is none of these)
        waiting = {self.tag + place: key for place, key in enumerate(messages)}
        self.tag += len(messages)
        out = _lines([{"tag": tag, **messages[key]} for tag, key in waiting.items()])
        while waiting:
            sent = self._send(out)
            out = out[sent:]
            data = self._take()
            if not sent and data is None:
                self._wait(bool(out))
            for answer in self._whole(data or b""):
                if answer.get("tag") is None:
                    raise Failure(str(answer.get("error") or answer.get("again")))
                if answer["tag"] in waiting:
                    yield waiting.pop(answer["tag"]), answer

    def _send(self, out: bytes) -> int:
        """Sends some bytes; answers how many went."""
        try:
            return self.link.send(out[:PART]) if out else 0
        except WAITS:
            return 0

    def _take(self) -> Optional[bytes]:
        """Takes what came, or None where nothing did; raises ConnectionError where the other side has gone."""
        try:
            data = self.link.recv(PART)
        except WAITS:
            return None
        if not data:
            raise ConnectionError("the server has gone")
        return data

    def _wait(self, sends: bool) -> None:
        """Waits until something may go or come."""
        can_read, can_write, _ = select.select([self.link], [self.link] if sends else [], [], self.seconds)
        if not can_read and not can_write:
            raise TimeoutError(f"no answer in {self.seconds:g} seconds")

    def _whole(self, data: bytes) -> Iterator[dict[str, Any]]:
        """The whole lines that there are."""
        *lines, self.left = (self.left + data).split(b"\n")
        return map(json.loads, lines)

    def close(self) -> None:
        """Ends the connection."""
        self.link.close()


def _lines(messages: list[Any]) -> bytes:
    """Messages as lines: lists of them, none of which is too long."""
    texts = [json.dumps(it) for it in messages]
    lines: list[list[str]] = [[]]
    size = 0
    for it in texts:
        if size + len(it) > PART:
            lines.append([])
            size = 0
        lines[-1].append(it)
        size += len(it) + 2
    return "".join(f"[{', '.join(it)}]\n" if len(it) > 1 else f"{it[0]}\n" for it in lines if it).encode()
