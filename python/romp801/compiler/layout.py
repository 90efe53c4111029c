"""The text of a program: its parts, their rows and their data."""
from __future__ import annotations

from typing import TYPE_CHECKING, Optional

from romp801.compiler import routines
from romp801.compiler.code import Block, Code, Data, Thing
from romp801.compiler.faults import Place, Refused
from romp801.compiler.kinds import up
from romp801.compiler.rows import TOP, Line, Row, plus

if TYPE_CHECKING:
    from romp801.compiler.whole import Finished, Whole, Labels

LEAST_STACK = 512
"""Bytes that a program leaves at least for a stack whose depth isn't told."""
NEAR = (-256, 254)
"""How far a jump of two bytes goes."""
LONG = {"jb": "bb", "jnb": "bnb"}


class TooLarge(Refused):
    """A program that the private storage has no room for."""


class Layout:
    """Writes a program."""

    def __init__(self, whole: Whole, things: list[Thing], rows: dict[Code, list[Line]], names: Labels) -> None:
        self.whole, self.things, self.rows, self.names = whole, things, rows, names
        self.at = 0
        self.text: list[str] = []
        self.labels: dict[Block, str] = {}
        self.last: Optional[Place] = None

    def write(self) -> Finished:
        """The lines, with the function where it begins in front."""
        from romp801.compiler.whole import Finished

        main = self.whole.main
        units = [main.unit, *(it for it in self.names.units if it != main.unit)]
        bodies: dict[Optional[int], list[str]] = {}
        for unit in units:
            bodies[unit] = [*self._pad(), *self._rows(unit), *self._datas(unit)]
        parts: list[list[str]] = []
        for unit in units:
            head = self._head() if unit == main.unit else []
            exports = [it for it in self.things if it.unit == unit and it in self.names.exported]
            parts.append([*head, *(f"        .export {self.names.labels[it]}" for it in exports), *bodies[unit]])
        library = self._library()
        if not self.whole.exact:
            library = [f"        .export {self.names.end}", *library, f"{self.names.end}:"]
        if library:
            parts.append(library)
        depth = self.whole.depth()
        least = max(LEAST_STACK, self.whole.frames[main])
        if self.at + (depth if depth is not None else least) > TOP:
            need = f"the {depth}" if depth is not None else f"the least, {least},"
            raise TooLarge(
                self.whole.bodies[main].place,
                f"{main.name} has {self.at} bytes, and with {need} of its stack it passes {TOP}",
            )
        lines = parts[0]
        for it in parts[1:]:
            lines += [".part", *it]
        return Finished([f"program {main.name}", *lines, "end"], self.at, depth)

    def _pad(self) -> list[str]:
        """Zeros up to the next multiple of four."""
        pad = up(self.at, 4) - self.at
        self.at += pad
        return [f"        .space  {pad}"] if pad else []

    def _head(self) -> list[str]:
        """The windows."""
        return [
            f"        .window {it.register}, {it.segment}, {it.how}"
            for it in sorted(self.whole.shared.windows.values())
        ]

    def _rows(self, unit: Optional[int]) -> list[str]:
        """The functions of a file."""
        found: list[str] = []
        main = self.whole.main
        codes = [it for it in self.things if isinstance(it, Code) and it.unit == unit and it is not main]
        if unit == main.unit:
            codes.insert(0, main)
        for code in codes:
            lines = self.rows[code]
            self._measure(lines)
            found.append(f"{self.names.labels[code]}:")
            found += self._function(lines)
        return found

    def _measure(self, lines: list[Line]) -> None:
        """Makes jumps longer that don't reach their targets."""
        changed = True
        while changed:
            changed = False
            at, places = 0, {}
            for it in lines:
                if isinstance(it, Block):
                    places[it] = at
                else:
                    at += it.size
            at = 0
            for it in lines:
                if isinstance(it, Row):
                    if it.target is not None and it.size == 2:
                        if not NEAR[0] <= places[it.target] - at <= NEAR[1]:
                            it.op, it.size, changed = LONG[it.op], 4, True
                    at += it.size

    def _function(self, lines: list[Line]) -> list[str]:
        """The lines of a function."""
        targets = {it.target for it in lines if isinstance(it, Row)}
        for it in lines:
            if isinstance(it, Block) and it in targets:
                self.labels[it] = self.names.numbered("L")
        found: list[str] = []
        waiting: list[str] = []
        last: Optional[Place] = None
        for it in lines:
            if isinstance(it, Block):
                if it in targets:
                    waiting.append(f"{self.labels[it]}:")
                continue
            self.at += it.size
            if it.place is not None and (last is None or it.place[:2] != last[:2]):
                last = it.place
                found.append(self.whole.sources.line(last))
            found += waiting
            waiting = []
            operands = list(it.operands)
            if it.target is not None:
                operands.append(self.labels[it.target])
            found.append(f"        {it.op:<8}{', '.join(operands)}".rstrip())
        return found + waiting

    def _library(self) -> list[str]:
        """The routines."""
        names = self.names.routines
        if not names:
            return []
        lines = [*self._pad(), *(f"        .export {it}" for it in names.values())]
        for op in names:
            lines += routines.text(op, names)
            self.at += routines.size(op)
        lines += self._pad()
        for op, name in names.items():
            for letter in "ks"[: routines.WORDS[op]]:
                lines.append(f"{name}_{letter}: .word 0")
                self.at += 4
        return lines

    def _datas(self, unit: Optional[int]) -> list[str]:
        """The data of a file."""
        found: list[str] = []
        for it in self.things:
            if isinstance(it, Data) and it.unit == unit:
                found += self._data(it)
        return found

    def _data(self, it: Data) -> list[str]:
        """Data at a multiple of four."""
        found = [*self._pad(), f"{self.names.labels[it]}:"]
        size = max(it.type.size, 1)
        data = bytes(it.bytes).ljust(size, b"\0")
        links = {at: (thing, far) for at, thing, far in it.links}
        at, zeros = 0, 0
        while at < size:
            if at in links:
                found += [f"        .space {zeros}"] if zeros else []
                thing, far = links[at]
                found.append(f"        .word   {plus(self.names.of(thing, it.unit), far)}")
                at, zeros = at + 4, 0
            elif not any(data[at : at + 4]):
                zeros += min(4, size - at)
                at += 4
            else:
                found += [f"        .space {zeros}"] if zeros else []
                zeros = 0
                piece = data[at : at + 4]
                if len(piece) == 4:
                    found.append(f"        .word   0x{piece.hex()}")
                else:
                    found += [f"        .byte   {one}" for one in piece]
                at += 4
        found += [f"        .space {zeros}"] if zeros else []
        self.at += size
        return found
