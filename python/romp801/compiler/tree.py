"""Expressions of C with their types told and their conversions written out."""
from __future__ import annotations

import dataclasses
from typing import Any, Optional, Union

from romp801.compiler.code import Code, Thing
from romp801.compiler.faults import Place
from romp801.compiler.kinds import Int, Type


class Variable:
    """A variable of a function; one that is `kept` has a place in the frame, and another is a register."""

    def __init__(self, name: str, its: Type, kept: bool) -> None:
        self.name, self.type, self.kept = name, its, kept


@dataclasses.dataclass
class Expr:
    """An expression: its type and where it stands."""

    type: Type
    place: Optional[Place]


@dataclasses.dataclass
class Number(Expr):
    """A constant integer, or a constant address."""

    value: int


@dataclasses.dataclass
class Address(Expr):
    """The address of a thing, so many bytes on."""

    thing: Thing
    offset: int = 0


@dataclasses.dataclass
class Named(Expr):
    """A place: a variable, or what lies so many bytes into it."""

    variable: Variable
    offset: int = 0


@dataclasses.dataclass
class At(Expr):
    """A place: what an address and so many bytes tell."""

    address: Expr
    offset: int = 0


@dataclasses.dataclass
class PlaceOf(Expr):
    """The address of a place."""

    of: Lvalue


@dataclasses.dataclass
class Content(Expr):
    """What is in a place."""

    of: Lvalue


@dataclasses.dataclass
class Unary(Expr):
    """- or ~."""

    op: str
    of: Expr


@dataclasses.dataclass
class Binary(Expr):
    """Arithmetic of two values of one type, or a shift."""

    op: str
    one: Expr
    other: Expr


@dataclasses.dataclass
class Comparison(Expr):
    """Whether two values of one type compare so."""

    op: str
    one: Expr
    other: Expr


@dataclasses.dataclass
class Both(Expr):
    """&& or ||."""

    op: str
    one: Expr
    other: Expr


@dataclasses.dataclass
class Not(Expr):
    """Whether a truth is none."""

    of: Expr


@dataclasses.dataclass
class Converted(Expr):
    """A value as another integer type."""

    of: Expr


@dataclasses.dataclass
class Assigned(Expr):
    """A place gets a value, which it is."""

    to: Lvalue
    value: Expr


@dataclasses.dataclass
class Updated(Expr):
    """A place gets what an operation makes of what it has, as the type `within`; the value is that, or what was there
    before."""

    to: Lvalue
    op: str
    value: Expr
    within: Type
    before: bool = False


@dataclasses.dataclass
class Call(Expr):
    """A call of a function, or of one whose address is a value."""

    target: Union[Code, Expr]
    args: list[Expr]


@dataclasses.dataclass
class Service(Expr):
    """A call of the machine: 0 commits, 1 prints a byte, 2 gives up."""

    number: int
    args: list[Expr]


@dataclasses.dataclass
class Choice(Expr):
    """One value or the other, by a truth."""

    truth: Expr
    one: Expr
    other: Expr


@dataclasses.dataclass
class Pair(Expr):
    """First one, for what it does, and then the other."""

    one: Expr
    other: Expr


@dataclasses.dataclass
class Made(Expr):
    """A place that has a variable without a name, which is given its values first."""

    variable: Variable
    stores: list[Any]


Lvalue = Union[Named, At, Made]


def is_zero(it: Expr) -> bool:
    """Whether it is the constant 0, which is no address of anything."""
    return isinstance(it, Number) and it.value == 0


def truth_of(it: Expr) -> Optional[bool]:
    """Whether a constant is true; None of what is none."""
    if isinstance(it, Number):
        return it.value != 0
    return True if isinstance(it, Address) else None


def is_int(it: Expr) -> bool:
    """Whether it is an integer."""
    return isinstance(it.type, Int)
