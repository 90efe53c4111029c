#!/usr/bin/env python3
"""Hands on connections, but not while a file is there: a network that is cut. `proxy.py CUT LISTEN=TARGET ..`, ports
of 127.0.0.1. CUT cuts all of them, CUT-LISTEN one. What was sent meanwhile arrives when the file has gone, also where
who sent it has hung up."""
from __future__ import annotations

import asyncio
import os
import sys


class Proxy:
    """One port."""

    def __init__(self, cut: str, listen: int, target: int) -> None:
        self.cut, self.listen, self.target = cut, listen, target

    def is_cut(self) -> bool:
        """Whether nothing passes."""
        return os.path.exists(self.cut) or os.path.exists(f"{self.cut}-{self.listen}")

    async def carry(self, reader: asyncio.StreamReader, writer: asyncio.StreamWriter) -> None:
        """One way of a connection."""
        held = False
        try:
            while data := await reader.read(65536):
                while self.is_cut():
                    held = True
                    await asyncio.sleep(0.05)
                writer.write(data)
                await writer.drain()
        except OSError:
            pass
        finally:
            # (that the sender hung up comes later still: who hears of it at once takes back what it was asked)
            if held:
                await asyncio.sleep(1)
            writer.close()

    async def accept(self, reader: asyncio.StreamReader, writer: asyncio.StreamWriter) -> None:
        """One connection."""
        try:
            there, here = await asyncio.open_connection("127.0.0.1", self.target)
        except OSError:
            writer.close()
            return
        await asyncio.gather(self.carry(reader, here), self.carry(there, writer))


async def main() -> None:
    cut, *pairs = sys.argv[1:]
    proxies = [Proxy(cut, *map(int, it.split("="))) for it in pairs]
    servers = [await asyncio.start_server(it.accept, "127.0.0.1", it.listen) for it in proxies]
    await asyncio.gather(*(it.serve_forever() for it in servers))


asyncio.run(main())
