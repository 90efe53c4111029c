"""What a function becomes before it has registers: blocks of plain steps on values.

A value is a number of 32 bits (kept from 0 to 4,294,967,295), a register of as many as are wanted, the address of
something of the program, or one of the function's own places.
"""
from __future__ import annotations

import dataclasses
import itertools
from typing import Iterator, Optional, Union

from romp801.compiler.faults import Place
from romp801.compiler.kinds import WORD, Type

_numbers = itertools.count()


class Reg:
    """A register of as many as are wanted."""

    __slots__ = ("number", "name", "span")

    def __init__(self, name: str = "t", span: Optional[tuple[int, int]] = None) -> None:
        self.number = next(_numbers)
        self.name, self.span = name, span

    def __repr__(self) -> str:
        return f"{self.name}.{self.number}"


class Thing:
    """Something of the program that has an address: a function or data. `unit` is the file that has it."""

    def __init__(self, name: str, its: Type, external: bool) -> None:
        self.name, self.type, self.external = name, its, external
        self.unit: Optional[int] = None
        self.label = name
        self.place: Optional[Place] = None

    def __repr__(self) -> str:
        return self.name


class Data(Thing):
    """Bytes, and the addresses that stand in them: where, of what, and how far on."""

    def __init__(self, name: str, its: Type, external: bool) -> None:
        super().__init__(name, its, external)
        self.bytes = bytearray()
        self.links: list[tuple[int, Thing, int]] = []


class Code(Thing):
    """A function, and its body where it is known."""

    def __init__(self, name: str, its: Type, external: bool) -> None:
        super().__init__(name, its, external)
        self.body: Optional[Body] = None


@dataclasses.dataclass(frozen=True)
class Symbol:
    """So many bytes from the address of a thing on."""

    thing: Thing
    offset: int = 0


class Slot:
    """A place of a function's own, in its frame."""

    __slots__ = ("size", "align", "at")

    def __init__(self, size: int, align: int = 4) -> None:
        self.size, self.align, self.at = size, align, 0


@dataclasses.dataclass(frozen=True)
class Spot:
    """So many bytes from the front of a slot on."""

    slot: Slot
    offset: int = 0


Value = Union[int, Reg, Symbol, Spot]

PURE = frozenset("move add sub and or xor shl shr sar neg not ext8 ext16 set".split())
"""Steps that do nothing but give a value."""
ROUTINES = frozenset("mul divu divs remu rems".split())
"""Steps that are a routine's."""
TURNED = {"eq": "ne", "ne": "eq", "lt": "ge", "ge": "lt", "gt": "le", "le": "gt"}
TURNED.update({f"{one}u": f"{other}u" for one, other in list(TURNED.items())[2:]})
"""The condition that holds where another doesn't."""
SWAPPED = {"eq": "eq", "ne": "ne", "lt": "gt", "gt": "lt", "le": "ge", "ge": "le"}
SWAPPED.update({f"{one}u": f"{other}u" for one, other in list(SWAPPED.items())[2:]})
"""The same condition of the values the other way round."""


STACK = Reg("stack")
"""The address of the function's frame."""


class Step:
    """A step. `to` is where its value goes; `a` and `b` are what it takes, and `args` what a call takes. The address of
    a load or a store is `a` and `offset` on, and the address of `near` where there is one; of a slot that is within
    the frame."""

    __slots__ = ("op", "to", "a", "b", "args", "size", "signed", "offset", "condition", "target", "place", "near")

    def __init__(
        self,
        op: str,
        to: Optional[Reg] = None,
        a: Optional[Value] = None,
        b: Optional[Value] = None,
        size: int = 4,
        signed: bool = False,
        offset: int = 0,
        condition: str = "",
        place: Optional[Place] = None,
    ) -> None:
        self.op, self.to, self.a, self.b = op, to, a, b
        self.size, self.signed, self.offset, self.condition, self.place = size, signed, offset, condition, place
        self.args: list[Value] = []
        self.target: Optional[Code] = None
        self.near: Optional[Union[Thing, Slot]] = None

    def values(self) -> Iterator[Value]:
        """What it takes."""
        if self.a is not None:
            yield self.a
        if self.b is not None:
            yield self.b
        yield from self.args

    def uses(self) -> list[Reg]:
        """The registers that it takes, but for that of the frame."""
        found = [self.a] if isinstance(self.a, Reg) and self.a is not STACK else []
        if isinstance(self.b, Reg) and self.b is not STACK:
            found.append(self.b)
        if self.args:
            found += [it for it in self.args if isinstance(it, Reg) and it is not STACK]
        return found

    def copy(self) -> Step:
        """The same step again."""
        found = Step(self.op, self.to, self.a, self.b, self.size, self.signed, self.offset, self.condition, self.place)
        found.args, found.target, found.near = list(self.args), self.target, self.near
        return found

    def __repr__(self) -> str:
        parts = [self.op + self.condition, str(self.size) if self.op in ("load", "store") else ""]
        parts += [repr(it) for it in self.values()] + [f"+{self.offset}" if self.offset else ""]
        if self.target is not None:
            parts.append(self.target.name)
        return (f"{self.to} = " if self.to else "") + " ".join(filter(None, parts))


class End:
    """How a block ends: `jump` to `then`; `branch` there where a condition of two values holds, else to `other`;
    `return` a value; or `stop`, where the step before doesn't come back."""

    __slots__ = ("op", "condition", "a", "b", "then", "other", "place")

    def __init__(self, op: str, place: Optional[Place] = None) -> None:
        self.op, self.place = op, place
        self.condition = ""
        self.a: Optional[Value] = None
        self.b: Optional[Value] = None
        self.then: Optional[Block] = None
        self.other: Optional[Block] = None

    def uses(self) -> list[Reg]:
        """The registers that it takes."""
        return [it for it in (self.a, self.b) if isinstance(it, Reg) and it is not STACK]

    def after(self) -> list[Block]:
        """The blocks that may be next."""
        return [it for it in (self.then, self.other) if it is not None]

    def __repr__(self) -> str:
        to = ", ".join(f"b{it.number}" for it in self.after())
        return f"{self.op}{self.condition} {self.a} {self.b} {to}"


class Block:
    """Steps one after another, and how they end."""

    __slots__ = ("number", "steps", "end", "depth")

    def __init__(self) -> None:
        self.number = next(_numbers)
        self.steps: list[Step] = []
        self.end = End("stop")
        self.depth = 0

    def __repr__(self) -> str:
        return "\n".join([f"b{self.number}:", *(f"  {it}" for it in self.steps), f"  {self.end}"])


class Body:
    """What a function does: its parameters, its blocks in their order, of which the first is where it begins, and
    its slots."""

    def __init__(self) -> None:
        self.parameters: list[Reg] = []
        self.blocks: list[Block] = []
        self.returns = False
        self.place: Optional[Place] = None

    def __repr__(self) -> str:
        return "\n".join([f"({self.parameters})", *map(repr, self.blocks)])

    def steps(self) -> Iterator[Step]:
        """All its steps."""
        for block in self.blocks:
            yield from block.steps


def word(value: int) -> int:
    """A number as a value."""
    return value & WORD


def signed(value: int) -> int:
    """A value as a number with a sign."""
    return value - (1 << 32) if value >> 31 else value


def compare(condition: str, one: int, other: int) -> bool:
    """Whether a condition of two values holds."""
    if condition not in ("eq", "ne") and not condition.endswith("u"):
        one, other = signed(one), signed(other)
    return {"e": one == other, "n": one != other, "l": one < other, "g": one > other}[condition[0]] or (
        condition[1] == "e" and condition[0] != "n" and one == other
    )


def compute(op: str, one: int, other: int = 0) -> Optional[int]:
    """What a step makes of values, where it makes something."""
    if op in ("shl", "shr", "sar"):
        if other > 31:
            return None
        return word({"shl": one << other, "shr": one >> other, "sar": signed(one) >> other}[op])
    if op in ("divu", "remu"):
        return None if not other else one // other if op == "divu" else one % other
    if op in ("divs", "rems"):
        if not other:
            return None
        x, y = signed(one), signed(other)
        quotient = abs(x) // abs(y) * (1 if (x < 0) == (y < 0) else -1)
        return word(quotient if op == "divs" else x - quotient * y)
    simple = {
        "add": one + other,
        "sub": one - other,
        "mul": one * other,
        "and": one & other,
        "or": one | other,
        "xor": one ^ other,
        "neg": -one,
        "not": ~one,
        "ext8": (one & 0xFF ^ 0x80) - 0x80,
        "ext16": (one & 0xFFFF ^ 0x8000) - 0x8000,
    }
    return word(simple[op])
