"""A client of etcd by its gateway for HTTP and JSON (/v3/..): keys, transactions, leases and a watch.

Keys and values are bytes. A call that only reads is tried at each member in turn until its time is over. One that
writes is sent once: where nothing was sent (no connection) the next member is tried, and where it isn't known what
came of it `Unknown` is raised; who calls then reads what stands.
"""
from __future__ import annotations

import base64
import http.client
import json
import socket
import ssl
import threading
import time
import urllib.parse
from typing import Any, Callable, Iterable, Mapping, NamedTuple, Optional, Tuple

from romp801.errors import WRONG_USE, Failure

Part = Mapping[str, Any]
"""A comparison or a deed of a transaction."""
PORT = 2379


class EngineFault(Failure):
    """The engine can't be reached, or refused a call that changes nothing."""


class Refused(EngineFault):
    """A write was answered by an error with which it isn't made: it is too large, or the engine has no room."""


class Unknown(EngineFault):
    """A write was sent, and it isn't known whether it was made."""


class _NotSent(Exception):
    """There was no connection: nothing was sent."""


def text64(data: bytes) -> str:
    """Bytes as the gateway has them."""
    return base64.b64encode(data).decode()


def end_of(prefix: bytes) -> bytes:
    """The end of the range of all keys that begin so."""
    return prefix[:-1] + bytes([prefix[-1] + 1])


class Item(NamedTuple):
    """A key with its value, the revisions that made and changed it last, and its lease."""

    key: bytes
    value: bytes
    created: int
    changed: int
    lease: int

    @classmethod
    def of(cls, raw: Mapping[str, Any]) -> Item:
        """That of an answer."""
        key, value = (base64.b64decode(raw.get(part, "")) for part in ("key", "value"))
        return cls(key, value, int(raw["create_revision"]), int(raw["mod_revision"]), int(raw.get("lease", 0)))


class Member(NamedTuple):
    """Where a member of the engine answers."""

    host: str
    port: int
    safe: bool

    @classmethod
    def of(cls, url: str) -> Member:
        """That of http://HOST:PORT or https://HOST:PORT."""
        found = urllib.parse.urlsplit(url if "//" in url else f"http://{url}")
        if found.scheme not in ("http", "https") or not found.hostname:
            raise Failure(f"{url} is no http://HOST:PORT of the engine", WRONG_USE)
        return cls(found.hostname, found.port or PORT, found.scheme == "https")

    def open(self, tls: Optional[ssl.SSLContext], seconds: float) -> http.client.HTTPConnection:
        """A connection to it, which isn't made yet."""
        if self.safe:
            return http.client.HTTPSConnection(self.host, self.port, timeout=seconds, context=tls)
        return http.client.HTTPConnection(self.host, self.port, timeout=seconds)


class Engine:
    """The members of one etcd, of a list with commas. Each thread has a connection of its own."""

    def __init__(self, members: str, tls: Optional[ssl.SSLContext] = None, seconds: float = 2.0) -> None:
        self.members = [Member.of(it.strip()) for it in members.split(",")]
        self.tls, self.seconds = tls, seconds
        self.mine = threading.local()
        self.at = 0

    def _connection(self) -> http.client.HTTPConnection:
        """This thread's connection, open."""
        found: Optional[http.client.HTTPConnection] = getattr(self.mine, "connection", None)
        if found is not None and self.mine.at == self.at:
            return found
        if found is not None:
            found.close()
        self.mine.at = self.at
        found = self.mine.connection = self.members[self.at % len(self.members)].open(self.tls, self.seconds)
        try:
            found.connect()
            found.sock.setsockopt(socket.IPPROTO_TCP, socket.TCP_NODELAY, 1)
        except OSError as error:
            self._leave()
            raise _NotSent(str(error)) from error
        return found

    def _leave(self) -> None:
        """Leaves this member, for the next call."""
        self.mine.connection.close()
        self.mine.connection = None
        if self.mine.at == self.at:
            self.at += 1

    def _once(self, path: str, body: bytes) -> Any:
        """One call at one member."""
        connection = self._connection()
        try:
            connection.request("POST", path, body, {"Content-Type": "application/json"})
            answer = connection.getresponse()
            data = answer.read()
        except (OSError, http.client.HTTPException) as error:
            self._leave()
            raise Unknown(f"{path}: {error!r}") from error
        if answer.status == 200:
            return json.loads(data)
        said = f"{path}: {answer.status} {data[:200]!r}"
        if answer.status in (400, 401, 403, 429) or b"database space exceeded" in data:
            raise Refused(said)
        # (also "no leader" and "request timed out", which may have been made)
        self._leave()
        raise Unknown(said)

    def read(self, path: str, body: Part, seconds: Optional[float] = None) -> Any:
        """A call that changes nothing, tried at each member until its time is over."""
        text = json.dumps(body).encode()
        end = time.monotonic() + (2 * self.seconds if seconds is None else seconds)
        while True:
            try:
                return self._once(path, text)
            except (Unknown, _NotSent) as error:
                if time.monotonic() > end:
                    raise EngineFault(str(error)) from error
                time.sleep(0.02)

    def write(self, path: str, body: Part) -> Any:
        """A call that writes: sent once."""
        text = json.dumps(body).encode()
        for _ in self.members:
            try:
                return self._once(path, text)
            except _NotSent as error:
                why = str(error)
                time.sleep(0.02)
        raise EngineFault(f"{path}: no member can be reached: {why}")

    # keys

    def get(self, key: bytes, seconds: Optional[float] = None) -> Optional[Item]:
        """A key as the majority has it now, or None."""
        items = self.read("/v3/kv/range", {"key": text64(key)}, seconds).get("kvs", [])
        return Item.of(items[0]) if items else None

    def range(self, first: bytes, end: bytes, limit: int = 0) -> list[Item]:
        """The keys from one on, below another, ascending, as the majority has them now."""
        body = {"key": text64(first), "range_end": text64(end), "limit": limit}
        order = {"sort_order": "ASCEND", "sort_target": "KEY"}
        return [Item.of(it) for it in self.read("/v3/kv/range", {**body, **order}).get("kvs", [])]

    def put(self, key: bytes, value: bytes) -> None:
        """Puts a key, whatever stands there."""
        self.write("/v3/kv/put", {"key": text64(key), "value": text64(value)})

    def remove(self, first: bytes, end: bytes) -> None:
        """Removes a range of keys."""
        self.write("/v3/kv/deleterange", {"key": text64(first), "range_end": text64(end)})

    def transaction(self, compares: Iterable[Part], deeds: Iterable[Part]) -> bool:
        """Whether all comparisons held, so that all deeds were made, at one moment."""
        said = self.write("/v3/kv/txn", {"compare": [*compares], "success": [*deeds], "failure": []})
        return bool(said.get("succeeded"))

    def look(self, compares: Iterable[Part], *keys: bytes) -> Tuple[bool, list[Optional[Item]]]:
        """Whether all comparisons hold, and what these keys are at the same moment."""
        gets = [{"request_range": {"key": text64(key)}} for key in keys]
        said = self.read("/v3/kv/txn", {"compare": [*compares], "success": gets, "failure": gets})
        found = [it["response_range"].get("kvs", []) for it in said["responses"]]
        return bool(said.get("succeeded")), [Item.of(items[0]) if items else None for items in found]

    # leases

    def grant(self, seconds: int) -> int:
        """A lease of so many seconds."""
        return int(self.write("/v3/lease/grant", {"TTL": seconds})["ID"])

    def keep(self, lease: int) -> int:
        """Keeps a lease; answers its seconds, 0 where it is gone."""
        said = self.write("/v3/lease/keepalive", {"ID": str(lease)})
        return int(said.get("result", said).get("TTL", 0))

    def revoke(self, lease: int) -> None:
        """Ends a lease."""
        self.write("/v3/lease/revoke", {"ID": str(lease)})

    def watch(self, prefix: bytes, tell: Callable[[bytes], None], seconds: float = 3.0) -> None:
        """Calls `tell` with each changed key of a prefix, until nothing came for so long. It is a hint: who is told
        then reads."""
        connection = self.members[self.at % len(self.members)].open(self.tls, self.seconds)
        asked = {"create_request": {"key": text64(prefix), "range_end": text64(end_of(prefix))}}
        try:
            connection.request("POST", "/v3/watch", json.dumps(asked).encode())
            connection.sock.settimeout(seconds)
            answer = connection.getresponse()
            line = answer.readline()
            while line:
                for event in json.loads(line).get("result", {}).get("events", []):
                    tell(base64.b64decode(event["kv"]["key"]))
                line = answer.readline()
        except (OSError, http.client.HTTPException, ValueError):
            pass
        finally:
            connection.close()


def is_created(key: bytes, revision: int) -> Part:
    """Holds where a key was made by this revision and wasn't removed since; 0: there is no such key."""
    return {"key": text64(key), "target": "CREATE", "result": "EQUAL", "create_revision": str(revision)}


def is_changed(key: bytes, revision: int) -> Part:
    """Holds where the last change of a key is this one."""
    return {"key": text64(key), "target": "MOD", "result": "EQUAL", "mod_revision": str(revision)}


def is_value(key: bytes, value: bytes) -> Part:
    """Holds where a key has this value."""
    return {"key": text64(key), "target": "VALUE", "result": "EQUAL", "value": text64(value)}


def put(key: bytes, value: bytes, lease: int = 0) -> Part:
    """Puts a key, which goes with a lease."""
    return {"request_put": {"key": text64(key), "value": text64(value), "lease": str(lease)}}


def remove(first: bytes, end: bytes) -> Part:
    """Removes a range of keys."""
    return {"request_delete_range": {"key": text64(first), "range_end": text64(end)}}
