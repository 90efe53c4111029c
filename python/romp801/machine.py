"""The machine's rows, as far as they tell where a program stands (docs/FORMATS.md, "Instructions").

A report tells how many rows each turn ran, and not where they led. Run again here, on what the store had, they do: so a
page can show at which row a program waits, and which row a step of a trace is. Nothing is checked, since what is run
was run by the program before.
"""
from __future__ import annotations

from typing import Callable, Mapping, Optional

from romp801.prints import Image

WORD, SIGN = 0xFFFFFFFF, 1 << 31
PRIVATE = 16384
LT, EQ, GT, C0, OV = 1, 2, 3, 4, 5
SVC = 0xC0
EXECUTES = frozenset((0x89, 0x8B, 0x8D, 0x8F, 0xE9, 0xED, 0xEF))
"""Branches whose subject is the instruction behind them."""
LONG = frozenset((*range(0x88, 0x90), *range(0xC0, 0xE0))) - {0xC2}
"""Numbers of instructions of four bytes."""


def signed(value: int, bits: int = 32) -> int:
    """A value with its sign."""
    value &= (1 << bits) - 1
    return value - (1 << bits) if value >> bits - 1 else value


class Activation:
    """A program that runs: its registers, its flags, where it stands, its private storage and what it has written, which
    nobody else sees before it commits."""

    def __init__(self, image: Image, values: tuple[int, ...], content: Mapping[int, bytes]) -> None:
        self.registers = [0, 0, *values, *[0] * (14 - len(values))]
        self.flags = [0] * 8
        self.at = image.entry
        self.private = bytearray(image.data.ljust(PRIVATE, b"\0"))
        self.windows = {it.register: it.segment for it in image.windows}
        self.content = content
        self.written: dict[tuple[int, int], int] = {}

    def get(self, address: int, size: int) -> int:
        """The number that lies at an address."""
        address &= WORD & -size
        register, at = address >> 28, address & 0xFFFFFFF
        if not register:
            return int.from_bytes(self.private[at : at + size], "big")
        segment = self.windows[register]
        data = bytearray(self.content[segment][at : at + size])
        for place in range(size):
            data[place] = self.written.get((segment, at + place), data[place])
        return int.from_bytes(data, "big")

    def put(self, address: int, size: int, value: int) -> None:
        """Stores a number."""
        address &= WORD & -size
        register, at = address >> 28, address & 0xFFFFFFF
        data = (value & ((1 << 8 * size) - 1)).to_bytes(size, "big")
        if not register:
            self.private[at : at + size] = data
            return
        for place, byte in enumerate(data):
            self.written[self.windows[register], at + place] = byte

    def compare(self, one: int, other: int) -> None:
        """Sets the three flags of an order."""
        self.flags[LT : GT + 1] = [int(one < other), int(one == other), int(one > other)]

    def give(self, register: int, value: int, told: bool = True) -> None:
        """A register gets a value, and flags tell of it."""
        self.registers[register] = value & WORD
        if told:
            self.compare(signed(value), 0)

    def sum(self, register: int, one: int, other: int, carry: int = 0) -> None:
        """A register gets a sum, with all flags."""
        one, other = one & WORD, other & WORD
        found = one + other + carry
        self.flags[C0] = found >> 32
        self.flags[OV] = (~(one ^ other) & (one ^ found)) >> 31 & 1
        self.give(register, found)

    def step(self) -> None:
        """One row; a branch with execute and its subject are one."""
        high = self.private[self.at]
        if high >= 0x88 and high in EXECUTES:
            after = self.at + (4 if high in LONG else 2)
            target = self._branch(self.at, high)
            self.at = after
            self._one()
            if target[1] is not None:
                self.registers[target[1]] = self.at
            self.at = self.at if target[0] is None else target[0]
        else:
            self._one()

    def _one(self) -> None:
        """One instruction."""
        at, high = self.at, self.private[self.at]
        first = int.from_bytes(self.private[at : at + 2], "big")
        a, b, c = high & 15, first >> 4 & 15, first & 15
        if high < 0x80:
            self.at += 2
            self._short(at, first, high >> 4, a, b, c)
        elif high in (0x88, 0x8A, 0x8C, 0x8E, 0xE8, 0xEC, 0xEE):
            self.at += 4 if high in LONG else 2
            target, link = self._branch(at, high)
            if link is not None:
                self.registers[link] = self.at
            self.at = self.at if target is None else target
        elif high in LONG:
            self.at += 4
            self._immediate(high, b, c, int.from_bytes(self.private[at + 2 : at + 4], "big"))
        else:
            self.at += 2
            self._two(high, b, c)

    def _short(self, at: int, first: int, op: int, a: int, b: int, c: int) -> None:
        """Jumps, short loads and stores, and the sum of three."""
        if op == 0:
            if self.flags[first >> 8 & 7] == first >> 11 & 1:
                self.at = at + 2 * signed(first, 8)
            return
        base = self.registers[c] if c else 0
        if op == 6:
            self.give(a, self.registers[b] + base, False)
            return
        size = {1: 1, 2: 2, 3: 4, 4: 1, 5: 2, 7: 4}[op]
        address = base + a * size
        if op < 4:
            self.put(address, size, self.registers[b])
        else:
            value = self.get(address, size)
            self.give(b, signed(value, 16) if op == 5 else value, False)

    def _branch(self, at: int, high: int) -> tuple[Optional[int], Optional[int]]:
        """Where a branch leads, or None where it isn't taken, and the register of its link."""
        first = int.from_bytes(self.private[at : at + 2], "big")
        b, c = first >> 4 & 15, first & 15
        if high < 0x90:
            more = int.from_bytes(self.private[at + 1 : at + 4], "big")
            target = (more if high in (0x8A, 0x8B) else at + 2 * signed(more, 20)) & ~1
        else:
            target = self.registers[c] & ~1
        if high in (0x8A, 0x8B):
            return target, 15
        if high in (0x8C, 0x8D, 0xEC, 0xED):
            return target, b
        wanted = int(high in (0x8E, 0x8F, 0xEE, 0xEF))
        return (target if self.flags[b] == wanted else None), None

    def _immediate(self, op: int, b: int, c: int, u: int) -> None:
        """Instructions with a number of sixteen bits."""
        it, i = self.registers[c], signed(u, 16)
        base = it if c else 0
        if op in (0xC1, 0xD1, 0xD2):
            carry = self.flags[C0] if op == 0xD1 else 0
            self.sum(b, i if op == 0xD2 else it, ~it if op == 0xD2 else i, 1 if op == 0xD2 else carry)
        elif op in (0xC8, 0xD8):
            self.give(b, base + (i if op == 0xC8 else u << 16), False)
        elif op in IMMEDIATES:
            self.give(b, IMMEDIATES[op](it, u))
        elif op == 0xD3:
            self.compare(it, i & WORD)
        elif op in (0xD4, 0xCC):
            if op == 0xD4:
                self.compare(signed(it), i)
        elif op in (0xC9, 0xD9):
            for register in range(b, 16):
                address = base + i + 4 * (register - b)
                if op == 0xC9:
                    self.registers[register] = self.get(address, 4)
                else:
                    self.put(address, 4, self.registers[register])
        elif op in LOADS:
            size, with_sign = LOADS[op]
            value = self.get(base + i, size)
            self.give(b, signed(value, 8 * size) if with_sign else value, False)
        elif op in STORES:
            self.put(base + i, STORES[op], self.registers[b])

    def _two(self, op: int, b: int, c: int) -> None:
        """Instructions of two registers, or of one and a number of four bits."""
        one, other = self.registers[b], self.registers[c]
        if op in SUMS:
            self.sum(b, *SUMS[op](one, other, c, self.flags[C0]))
        elif op in (0x91, 0x93, 0xA4):
            self.give(b, {0x91: one + c, 0x93: one - c, 0xA4: c}[op], False)
        elif op in (0x94, 0xB3, 0xB4):
            self.compare(
                one if op == 0xB3 else signed(one), c if op == 0x94 else other if op == 0xB3 else signed(other)
            )
        elif op in RESULTS:
            self.give(b, RESULTS[op](one, other, c))
        elif op == 0xEB:
            self.give(b, self.get(other, 2), False)


Three = Callable[[int, int, int], int]
IMMEDIATES: dict[int, Callable[[int, int], int]] = {
    0xC3: lambda it, u: it | u << 16,
    0xC4: lambda it, u: it | u,
    0xD7: lambda it, u: it ^ u << 16,
    0xC7: lambda it, u: it ^ u,
    0xC5: lambda it, u: it & u,
    0xC6: lambda it, u: it & (0xFFFF0000 | u),
    0xD5: lambda it, u: it & u << 16,
    0xD6: lambda it, u: it & (u << 16 | 0xFFFF),
}
LOADS = {0xCE: (1, False), 0xDA: (2, False), 0xCA: (2, True), 0xCD: (4, False)}
STORES = {0xDE: 1, 0xDC: 2, 0xDD: 4}
SUMS: dict[int, Callable[[int, int, int, int], tuple[int, int, int]]] = {
    0x90: lambda one, other, k, carry: (one, k, 0),
    0x92: lambda one, other, k, carry: (one, ~k, 1),
    0xB2: lambda one, other, k, carry: (other, ~one, 1),
    0xE1: lambda one, other, k, carry: (one, other, 0),
    0xE2: lambda one, other, k, carry: (one, ~other, 1),
    0xE4: lambda one, other, k, carry: (0, ~other, 1),
    0xF1: lambda one, other, k, carry: (one, other, carry),
    0xF2: lambda one, other, k, carry: (one, ~other, carry),
}
RESULTS: dict[int, Three] = {
    0x98: lambda one, other, k: one & ~(SIGN >> k),
    0x99: lambda one, other, k: one & ~(SIGN >> 16 + k),
    0x9A: lambda one, other, k: one | SIGN >> k,
    0x9B: lambda one, other, k: one | SIGN >> 16 + k,
    0xA0: lambda one, other, k: signed(one) >> k,
    0xA1: lambda one, other, k: signed(one) >> k + 16,
    0xA8: lambda one, other, k: one >> k,
    0xA9: lambda one, other, k: one >> k + 16,
    0xAA: lambda one, other, k: one << k,
    0xAB: lambda one, other, k: one << k + 16,
    0xB0: lambda one, other, k: signed(one) >> (other & 63),
    0xB8: lambda one, other, k: one >> (other & 63),
    0xBA: lambda one, other, k: one << (other & 63),
    0xB1: lambda one, other, k: signed(other, 16),
    0xE0: lambda one, other, k: abs(signed(other)),
    0xF4: lambda one, other, k: ~other,
    0xE3: lambda one, other, k: one | other,
    0xE5: lambda one, other, k: one & other,
    0xE7: lambda one, other, k: one ^ other,
}
