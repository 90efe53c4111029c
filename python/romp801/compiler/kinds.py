"""The types of C: their sizes, their alignments, and the numbers that an integer type has."""
from __future__ import annotations

import dataclasses
from typing import NamedTuple, Optional

WORD = 0xFFFFFFFF


class Type:
    """A type."""

    size: int
    align: int


class Void(Type):
    """No value, or what a pointer to anything points to."""

    size, align = 0, 1

    def __str__(self) -> str:
        return "void"


@dataclasses.dataclass(frozen=True)
class Int(Type):
    """An integer type; `truth` is that of _Bool, whose numbers are 0 and 1."""

    size: int
    signed: bool
    name: str = dataclasses.field(compare=False)
    truth: bool = False

    @property
    def align(self) -> int:  # type: ignore[override]
        """As many bytes as it has."""
        return self.size

    def holds(self, value: int) -> bool:
        """Whether it has this number."""
        return self.wrap(value) == value

    def wrap(self, value: int) -> int:
        """The number of this type that a number becomes."""
        if self.truth:
            return int(value != 0)
        value &= (1 << 8 * self.size) - 1
        return value - (1 << 8 * self.size) if self.signed and value >> (8 * self.size - 1) else value

    def __str__(self) -> str:
        return self.name


@dataclasses.dataclass(frozen=True)
class Pointer(Type):
    """An address of something."""

    to: Type
    size = align = 4

    def __str__(self) -> str:
        return f"{self.to} *"


@dataclasses.dataclass(frozen=True)
class Array(Type):
    """So many of a type; a count of None isn't told yet."""

    of: Type
    count: Optional[int]

    @property
    def size(self) -> int:  # type: ignore[override]
        """All its elements."""
        return self.of.size * (self.count or 0)

    @property
    def align(self) -> int:  # type: ignore[override]
        """That of its elements."""
        return self.of.align

    def __str__(self) -> str:
        return f"{self.of} [{'' if self.count is None else self.count}]"


class Field(NamedTuple):
    """A member: its offset and its type."""

    name: Optional[str]
    offset: int
    type: Type


class Record(Type):
    """A struct or a union, the same as itself alone."""

    def __init__(self, word: str, tag: Optional[str]) -> None:
        self.word, self.tag = word, tag
        self.fields: list[Field] = []
        self.size, self.align, self.laid = 0, 1, False

    def lay(self, members: list[tuple[Optional[str], Type]]) -> None:
        """Gives the members their offsets, in order."""
        at = 0
        for name, its in members:
            self.align = max(self.align, its.align)
            at = 0 if self.word == "union" else up(at, its.align)
            self.fields.append(Field(name, at, its))
            at += its.size
            self.size = max(self.size, at)
        self.size = up(self.size, self.align)
        self.laid = True

    def find(self, name: str) -> Optional[Field]:
        """A member by its name, also one of a member without a name."""
        for it in self.fields:
            if it.name == name:
                return it
            if it.name is None and isinstance(it.type, Record):
                inner = it.type.find(name)
                if inner is not None:
                    return Field(name, it.offset + inner.offset, inner.type)
        return None

    def __str__(self) -> str:
        return f"{self.word} {self.tag or '{..}'}"


@dataclasses.dataclass(frozen=True)
class Function(Type):
    """A function: what it returns and what it takes; None where that isn't told."""

    result: Type
    parameters: Optional[tuple[Type, ...]]
    size, align = 1, 1

    def __str__(self) -> str:
        return f"{self.result} ({', '.join(map(str, self.parameters or ()))})"


VOID = Void()
BOOL = Int(1, False, "_Bool", truth=True)
CHAR = Int(1, False, "char")
SCHAR = Int(1, True, "signed char")
UCHAR = Int(1, False, "unsigned char")
SHORT = Int(2, True, "short")
USHORT = Int(2, False, "unsigned short")
INT = Int(4, True, "int")
UINT = Int(4, False, "unsigned int")


def up(at: int, align: int) -> int:
    """The first multiple of an alignment from here on."""
    return -(-at // align) * align


def promoted(its: Int) -> Int:
    """What an integer type is in an expression."""
    return its if its.size == 4 else INT


def common(one: Int, other: Int) -> Int:
    """The type in which two integers are taken together."""
    one, other = promoted(one), promoted(other)
    return INT if one.signed and other.signed else UINT


def agree(one: Type, other: Type, known: tuple[tuple[Type, Type], ...] = ()) -> bool:
    """Whether two types are one, but for signs and for what isn't told. `known` are pairs that are being looked at."""
    if isinstance(one, Int) and isinstance(other, Int):
        return one.size == other.size and one.truth == other.truth
    if isinstance(one, Pointer) and isinstance(other, Pointer):
        return agree(one.to, other.to, known)
    if isinstance(one, Array) and isinstance(other, Array):
        return agree(one.of, other.of, known) and (one.count == other.count or None in (one.count, other.count))
    if isinstance(one, Function) and isinstance(other, Function):
        if not agree(one.result, other.result, known):
            return False
        if one.parameters is None or other.parameters is None:
            return True
        pairs = zip(one.parameters, other.parameters)
        return len(one.parameters) == len(other.parameters) and all(agree(a, b, known) for a, b in pairs)
    if isinstance(one, Record) and isinstance(other, Record):
        return one is other or _alike(one, other, known)
    return one == other or isinstance(one, Void) and isinstance(other, Void)


def _alike(one: Record, other: Record, known: tuple[tuple[Type, Type], ...]) -> bool:
    """Whether structs of two files are one."""
    if any(a is one and b is other for a, b in known) or not (one.laid and other.laid):
        return one.word == other.word and one.tag == other.tag
    if (one.word, one.tag, one.size, len(one.fields)) != (other.word, other.tag, other.size, len(other.fields)):
        return False
    more = (*known, (one, other))
    return all(a[:2] == b[:2] and agree(a.type, b.type, more) for a, b in zip(one.fields, other.fields))
