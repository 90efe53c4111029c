"""Compiles programs in C to programs of a job (docs/GUIDE.md, "In C").

What comes out is a text of the assembler, which the program reads as any other. source.py reads a file, with pycparser;
names.py, kinds.py and expressions.py say what it means; statements.py and lower.py make steps of it, and improve.py and
inline.py fewer; settle.py and registers.py give these registers, rows.py rows; whole.py and layout.py make the program.
"""
from __future__ import annotations

import sys
from typing import NamedTuple, Sequence

from romp801.compiler.code import Code
from romp801.compiler.faults import Place, Refused
from romp801.compiler.unit import Shared, Unit
from romp801.compiler.whole import Finished, Lines, Whole

DEEPEST = 6000
"""How deeply calls of the compiler may stand in each other, as what is nested asks."""


class Source(NamedTuple):
    """The files of a program, read."""

    units: list[Unit]
    shared: Shared
    lines: Lines

    def program(self, function: str) -> Finished:
        """The program that begins at a function; raises Refused."""
        try:
            return Whole(self.units, self.shared, function, self.lines).finish()
        except RecursionError as error:
            raise Refused(None, f"{function} is nested too deeply") from error


def read(paths: Sequence[str], options: Sequence[str] = ()) -> Source:
    """Reads files, with options for the preprocessor; raises Refused at the first place that isn't compiled."""
    from romp801.compiler import source

    sys.setrecursionlimit(max(sys.getrecursionlimit(), DEEPEST))
    shared = Shared()
    units: list[Unit] = []
    for path in paths:
        unit = Unit(shared, len(units))
        try:
            unit.read(source.tree_of(path, options))
        except RecursionError as error:
            raise Refused(Place(path, 0), "something is nested too deeply") from error
        units.append(unit)
    if any(it.unit is None and isinstance(it, Code) and it.name in source.LIBRARY for it in shared.things.values()):
        unit = Unit(shared, len(units))
        unit.read(source.tree_of(source.library(), (), kept=set(source.LIBRARY) - _defined(shared)))
        units.append(unit)
    return Source(units, shared, Lines())


def _defined(shared: Shared) -> set[str]:
    """The functions that have bodies."""
    return {name for name, it in shared.things.items() if it.unit is not None}
