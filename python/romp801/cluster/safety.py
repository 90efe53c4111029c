"""Who may ask: certificates, a secret, and that neither lacks on an address that others reach.

A folder for TLS has `ca.pem`, the certificate of who signs all others, and `cert.pem` with `key.pem`, one's own. A
client that shows a certificate of that hand is let in, or else one that knows the secret.
"""
from __future__ import annotations

import hmac
import ipaddress
import os
import ssl
from typing import NamedTuple, Optional, Tuple

from romp801 import files
from romp801.cluster.engine import Engine, EngineFault
from romp801.errors import WRONG_USE, Failure

SHORTEST = 16
"""Bytes of a secret, at least."""


def address(text: str) -> Tuple[str, int]:
    """HOST:PORT."""
    host, colon, port = text.rpartition(":")
    if not colon or not host or not port.isdigit() or int(port) >> 16:
        raise Failure(f"{text} is no HOST:PORT", WRONG_USE)
    return host.strip("[]"), int(port)


def is_loopback(host: str) -> bool:
    """Whether a host is this machine, and nobody else reaches it."""
    try:
        return ipaddress.ip_address(host).is_loopback
    except ValueError:
        return host == "localhost"


class Safety(NamedTuple):
    """What a process has of certificates and of the secret."""

    folder: Optional[str] = None
    secret: Optional[str] = None

    @classmethod
    def of(cls, folder: Optional[str], secret: Optional[str]) -> Safety:
        """That of a folder, and of a file with a secret."""
        if secret is None:
            return cls(folder, None)
        text = files.read_bytes(secret).decode("latin-1").strip()
        if len(text) < SHORTEST:
            raise Failure(f"the secret of {secret} has fewer than {SHORTEST} bytes", WRONG_USE)
        return cls(folder, text)

    def _has_certificate(self) -> bool:
        """Whether there is one of our own."""
        return self.folder is not None and files.is_file(os.path.join(self.folder, "cert.pem"))

    def _load(self, context: ssl.SSLContext) -> ssl.SSLContext:
        """The files of the folder, in a context."""
        assert self.folder is not None
        try:
            context.load_verify_locations(os.path.join(self.folder, "ca.pem"))
            if self._has_certificate():
                context.load_cert_chain(os.path.join(self.folder, "cert.pem"), os.path.join(self.folder, "key.pem"))
        except (OSError, ssl.SSLError) as error:
            raise Failure(f"the certificates in {self.folder}: {error}") from error
        return context

    def asks(self) -> Optional[ssl.SSLContext]:
        """For who asks, of a node or of the engine."""
        return self._load(ssl.create_default_context(ssl.Purpose.SERVER_AUTH)) if self.folder else None

    def answers(self) -> Optional[ssl.SSLContext]:
        """For who is asked: where there is a secret a certificate may lack."""
        if not self.folder:
            return None
        context = self._load(ssl.create_default_context(ssl.Purpose.CLIENT_AUTH))
        context.verify_mode = ssl.CERT_OPTIONAL if self.secret else ssl.CERT_REQUIRED
        return context

    def lets_in(self, certificate: object, told: object) -> bool:
        """Whether a client is let in: by its certificate, by the secret, or since nothing is asked for."""
        if certificate or self.secret is None:
            return True
        return isinstance(told, str) and hmac.compare_digest(told.encode(), self.secret.encode())

    def look_at_port(self, listen: str) -> None:
        """Refuses a port that others reach without certificates."""
        if not is_loopback(address(listen)[0]) and not self._has_certificate():
            raise Failure(
                f"{listen} is reached from elsewhere, so it wants --tls with certificates; without them a node "
                "listens on 127.0.0.1 alone",
                WRONG_USE,
            )

    def look_at_engine(self, engine: Engine) -> None:
        """Refuses an engine that others reach where it takes calls without a certificate or a name."""
        for member in engine.members:
            if is_loopback(member.host):
                continue
            if not member.safe or self.folder is None:
                raise Failure(f"{member.host} is elsewhere, so the engine wants https:// and --tls", WRONG_USE)
            bare = Safety(self.folder)._without()
            try:
                Engine(f"https://{member.host}:{member.port}", bare, engine.seconds).get(b"/romp801/", 0.0)
            except EngineFault:
                continue
            raise Failure(
                f"the engine at {member.host} takes calls without a certificate: start it with --client-cert-auth",
                WRONG_USE,
            )

    def _without(self) -> ssl.SSLContext:
        """One that shows no certificate."""
        assert self.folder is not None
        context = ssl.create_default_context(ssl.Purpose.SERVER_AUTH)
        context.load_verify_locations(os.path.join(self.folder, "ca.pem"))
        return context
