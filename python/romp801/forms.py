"""Lines by their forms: one template for each sort of line, by which it is read and written (docs/FORMATS.md).

A form has a line's words, and its fields in braces with their kinds: `commit {activation} number {number:long} ..`.
What is read is written again as it was: no number has a zero in front, and between two words there is one space.
"""
from __future__ import annotations

import functools
import re
from typing import Any, Callable, ClassVar, NamedTuple, Optional, Type

FIELD = re.compile(r"\{(\w+)(?::(\w+))?\}")
NAME = r"[A-Za-z_][A-Za-z0-9_]{0,30}"
"""A program's name."""
NUMBER = r"(?:0|[1-9][0-9]*)"
TEXT = "_text"
"""Where a line that was read has its text."""
PRINTED = 4096
"""The bytes that an activation may print, at most."""


class Kind(NamedTuple):
    """A kind of field: the pattern of its text, and how it is read and written. `read` raises ValueError."""

    pattern: str
    read: Callable[[str], Any]
    write: Callable[[Any], str]


def _below(bits: int) -> Callable[[str], int]:
    """Reads a number of so many bits."""

    def read(text: str) -> int:
        number = int(text)
        if number >> bits:
            raise ValueError(text)
        return number

    return read


def _many(most: int) -> Callable[[str], tuple[int, ...]]:
    """Reads one to so many numbers."""

    def read(text: str) -> tuple[int, ...]:
        found = tuple(map(_below(32), text.split(" ")))
        if len(found) > most:
            raise ValueError(text)
        return found

    return read


def _words(numbers: tuple[int, ...]) -> str:
    """Numbers with one space between two."""
    return " ".join(map(str, numbers))


def _printed(text: str) -> bytes:
    """Printed bytes, of which `-` is none."""
    found = b"" if text == "-" else bytes.fromhex(text)
    if len(found) > PRINTED:
        raise ValueError(text)
    return found


SOME = rf"{NUMBER}(?: {NUMBER})*"
HEX = r"(?:[0-9a-f]{2})"
KINDS = {
    "": Kind(NUMBER, _below(32), str),
    "long": Kind(NUMBER, _below(64), str),
    "name": Kind(NAME, str, str),
    "address": Kind(r"[0-9a-f]{8}", lambda text: int(text, 16), lambda number: f"{number:08x}"),
    "out": Kind(rf"(?:-|{HEX}+)", _printed, lambda data: data.hex() or "-"),
    "hex": Kind(rf"{HEX}+", bytes.fromhex, bytes.hex),
    "members": Kind(SOME, _many(17), _words),
    "holders": Kind(SOME, _many(16), _words),
    "right": Kind("rw?", str, str),
    "touch": Kind("[rw]", str, str),
    "left": Kind("(?:old|torn)", str, str),
}
"""The kinds of fields. Those without a kind are numbers below 2^32; `long` is below 2^64."""


@functools.lru_cache(maxsize=None)
def _parts(form: str) -> tuple[str, list[tuple[str, Callable[[Any], str], str]]]:
    """What stands in front of a form's fields, and of each its name, how it is written, and what stands behind it."""
    front, *rest = FIELD.split(form)
    return front, [(rest[at], KINDS[rest[at + 1] or ""].write, rest[at + 2]) for at in range(0, len(rest), 3)]


class Line:
    """A line: its class has the form, and its fields are those of the form."""

    form: ClassVar[str] = ""

    def __str__(self) -> str:
        """The line's text, without its line feed."""
        # (one that was read is written as it was)
        found: Optional[str] = self.__dict__.get(TEXT)
        if found is None:
            front, fields = _parts(self.form)
            found = front + "".join([write(getattr(self, name)) + behind for name, write, behind in fields])
        return found


class _Form:
    """How the lines of one class are read."""

    def __init__(self, line: Type[Line]) -> None:
        self.line = line
        self.fields = [(name, KINDS[kind].read) for name, kind in FIELD.findall(line.form)]
        parts = FIELD.split(line.form)
        self.pattern = re.compile(
            "".join(
                re.escape(parts[at]) + (f"({KINDS[parts[at + 2] or ''].pattern})" if at + 2 < len(parts) else "")
                for at in range(0, len(parts), 3)
            )
        )

    def read(self, text: str) -> Line:
        """The line of a text; raises ValueError where it is none of this form."""
        found = self.pattern.fullmatch(text)
        if not found:
            raise ValueError(text)
        line = self.line(**{name: read(part) for (name, read), part in zip(self.fields, found.groups())})
        line.__dict__[TEXT] = text
        return line


class Forms:
    """The lines that a text may have, by their first words; of one whose form begins with a field there is at most
    one."""

    def __init__(self, *lines: Type[Line]) -> None:
        self.by_word: dict[str, _Form] = {}
        for line in lines:
            word = line.form.split(" ")[0]
            self.by_word["" if word.startswith("{") else word] = _Form(line)

    def read(self, text: str) -> Line:
        """The line of a text without its line feed; raises ValueError where no line has it."""
        form = self.by_word.get(text.split(" ")[0]) or self.by_word.get("")
        if form is None:
            raise ValueError(text)
        return form.read(text)
