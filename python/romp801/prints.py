"""What the words `list`, `trace` and `audit` print (docs/FORMATS.md, "Listing" and "Bundle")."""
from __future__ import annotations

import dataclasses
from typing import NamedTuple

from romp801.forms import Forms, Line


@dataclasses.dataclass(frozen=True)
class Listed(Line):
    """A program's image: its name, its bytes, and the address at which it begins."""

    form = "program {name:name} bytes {size} entry {entry:address}"
    name: str
    size: int
    entry: int


@dataclasses.dataclass(frozen=True)
class Window(Line):
    """A window of a program: its register, its segment, and `r` or `rw`."""

    form = "window {register} segment {segment} {right:right}"
    register: int
    segment: int
    right: str


@dataclasses.dataclass(frozen=True)
class Row(Line):
    """Up to sixteen bytes, and where they begin."""

    form = "{offset:address} {data:hex}"
    offset: int
    data: bytes


@dataclasses.dataclass(frozen=True)
class Touch(Line):
    """A step of an activation, from 1, reads (`r`) or writes (`w`) the line of the store with this index."""

    form = "step {step:long} {how:touch} {index}"
    step: int
    how: str
    index: int


@dataclasses.dataclass(frozen=True)
class Traced(Line):
    """The end of a trace: the activation and its steps."""

    form = "trace {activation} steps {steps:long}"
    activation: int
    steps: int


@dataclasses.dataclass(frozen=True)
class Yes(Line):
    """An audit that found so many commits sound, and the closing store theirs."""

    form = "audit yes commits {commits}"
    commits: int


@dataclasses.dataclass(frozen=True)
class No(Line):
    """An audit that found the commit line at this place, from 1, not sound, or, one after the last, the closing
    store."""

    form = "audit no {place}"
    place: int


LISTING = Forms(Listed, Window, Row)
TRACE = Forms(Touch, Traced)


class Image(NamedTuple):
    """A program as it was assembled: its entry address, its windows and its bytes."""

    entry: int
    windows: list[Window]
    data: bytes


def images_of(listing: str) -> dict[str, Image]:
    """The programs of a listing, by their names; raises ValueError where it is none."""
    found: dict[str, Image] = {}
    name = ""
    for line in map(LISTING.read, listing.splitlines()):
        if isinstance(line, Listed):
            name = line.name
            found[name] = Image(line.entry, [], b"")
        elif isinstance(line, Window):
            found[name].windows.append(line)
        elif isinstance(line, Row):
            found[name] = found[name]._replace(data=found[name].data + line.data)
    return found


def touches_of(trace: str) -> list[Touch]:
    """The lines that an activation touched, step by step; raises ValueError where it is no trace."""
    return [it for it in map(TRACE.read, trace.splitlines()) if isinstance(it, Touch)]


def verdict_of(audit: str) -> Line:
    """The verdict of an audit, Yes or No: both begin with one word."""
    text = audit.rstrip("\n")
    return (Forms(Yes) if text.startswith("audit yes") else Forms(No)).read(text)
