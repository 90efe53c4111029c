"""A program of files of C: what of them it needs, in the assembler's words."""
from __future__ import annotations

import os
from typing import Iterator, NamedTuple, Optional

from romp801 import files
from romp801.compiler import routines
from romp801.compiler.clone import clone
from romp801.compiler.code import ROUTINES, Body, Code, Data, Reg, Step, Symbol, Thing
from romp801.compiler.faults import Place, Refused
from romp801.compiler.improve import improve
from romp801.compiler.inline import inline
from romp801.compiler.kinds import Function, Int, Record
from romp801.compiler.registers import CHANGED, LINK, SCRATCH, Coloring, allocate
from romp801.compiler.rows import Emitter, Line
from romp801.compiler.settle import Settler
from romp801.compiler.unit import Shared, Unit, functions_of
from romp801.errors import Failure

class Finished(NamedTuple):
    """A program: its lines, its bytes, and those of its stack, where they are told."""

    lines: list[str]
    size: int
    stack: Optional[int]


LONGEST_NAME = 31
"""Letters of a program's name, and of a label."""
LONGEST = 100
"""Characters of a line of C that are shown."""


class Lines:
    """The lines of C, as comments of the assembler."""

    def __init__(self) -> None:
        self.files: dict[str, list[str]] = {}

    def line(self, place: Place) -> str:
        """A line: its file, its number and its text."""
        if place.file not in self.files:
            try:
                text = files.read_bytes(place.file).decode("latin-1")
            except Failure:
                text = ""
            self.files[place.file] = text.split("\n")
        lines = self.files[place.file]
        text = lines[place.line - 1].strip() if 0 < place.line <= len(lines) else ""
        name = os.path.basename(place.file)
        return f"; {name}:{place.line}: {text[:LONGEST]}".rstrip().rstrip(":")


class Whole:
    """A program that begins at a function."""

    def __init__(self, units: list[Unit], shared: Shared, entry: str, sources: Lines) -> None:
        self.units, self.shared, self.sources = units, shared, sources
        self.plain = not any(it.names.volatile for it in units)
        self.entry = self._entry(entry)
        self.bodies: dict[Code, Body] = {}
        self.main = self._main()
        self.order: list[Code] = []
        self.recursive: set[Code] = set()
        self.clobbers: dict[Code, int] = {}
        self.frames: dict[Code, int] = {}
        self.exact = True

    def _entry(self, name: str) -> Code:
        """The function where it begins."""
        for unit in self.units:
            for it in unit.things:
                if isinstance(it, Code) and it.name == name and it.body is not None:
                    assert isinstance(it.type, Function)
                    if len(name) > LONGEST_NAME or "$" in name:
                        raise Refused(it.place, f"{name} is no program's name: {LONGEST_NAME} letters, digits and _ at most")
                    if len(it.type.parameters or ()) > 4:
                        raise Refused(it.place or it.body.place, f"{name} takes more than four values, as no begin has")
                    if isinstance(it.type.result, Record) or any(
                        isinstance(one, Record) for one in it.type.parameters or ()
                    ):
                        raise Refused(it.body.place, f"{name} takes or returns a struct, as no program does")
                    return it
        raise Refused(None, f"no function {name} is defined; those that are: {functions_of(self.units)}")

    def _main(self) -> Code:
        """The function where it begins, as a thing of its own: its values are made those of its types."""
        found = Code(self.entry.name, self.entry.type, False)
        found.unit = self.entry.unit
        assert self.entry.body is not None and isinstance(self.entry.type, Function)
        body = clone(self.entry.body)
        first: list[Step] = []
        for at, its in enumerate(self.entry.type.parameters or ()):
            if isinstance(its, Int) and its.size < 4:
                given = Reg("given")
                to = body.parameters[at]
                body.parameters[at] = given
                if its.truth:
                    first.append(Step("set", to, given, 0, condition="ne"))
                elif its.signed:
                    first.append(Step("ext8" if its.size == 1 else "ext16", to, given))
                else:
                    first.append(Step("and", to, given, 0xFF if its.size == 1 else 0xFFFF))
        body.blocks[0].steps[:0] = first
        for block in body.blocks:
            if block.end.op == "return":
                block.end.a = None
        self.bodies[found] = body
        return found

    def finish(self) -> Finished:
        """The whole program."""
        self._improve()
        things = self._reach()
        self._settle()
        lines: dict[Code, list[Line]] = {}
        colors = {}
        for code in self.order:
            colors[code] = self._allocate(code)
        names = Labels(self, things, {op for it in self.order for op in _ops(self.bodies[it])})
        emitters = {code: self._emitter(code, colors[code], names) for code in self.order}
        for code in self.order:
            lines[code] = self._emit(code, emitters[code], names)
        return self._write(things, lines, names)

    def _improve(self) -> None:
        """Improves each function that is reached, and puts small ones where they are called."""
        for code in self._codes():
            improve(self.bodies[code], self.plain)
        if inline(self.bodies, self.main):
            for code in self._codes():
                improve(self.bodies[code], self.plain)

    def body(self, code: Code) -> Body:
        """The body of a function in this program."""
        found = self.bodies.get(code)
        if found is None:
            if code.body is None:
                raise Refused(code.place, f"{code.name} is called, and no file defines it")
            found = self.bodies[code] = clone(code.body)
        return found

    def _codes(self) -> list[Code]:
        """The functions that are reached."""
        return [it for it in self._reach() if isinstance(it, Code)]

    def _reach(self) -> list[Thing]:
        """All that is reached."""
        found: dict[Thing, None] = {}
        waiting: list[Thing] = [self.main]
        while waiting:
            it = waiting.pop()
            if it in found:
                continue
            found[it] = None
            if isinstance(it, Code):
                waiting += list(dict.fromkeys(_things(self.body(it))))[::-1]
            elif isinstance(it, Data):
                if it.unit is None:
                    why = "is extern, and no file defines it; a record stands behind #pragma segment NUMBER r|rw"
                    raise Refused(it.place, f"{it.name} {why}")
                waiting += [thing for _, thing, _ in it.links][::-1]
        return list(found)

    def _settle(self) -> None:
        """The order in which functions get registers: those that are called first."""
        state: dict[Code, int] = {}
        calls = {it: list(dict.fromkeys(_calls(self.bodies[it]))) for it in self._codes()}
        for first in calls:
            if first in state:
                continue
            state[first] = 1
            waiting: list[tuple[Code, Iterator[Code]]] = [(first, iter(calls[first]))]
            while waiting:
                code, rest = waiting[-1]
                after = next(rest, None)
                if after is None:
                    state[code] = 2
                    self.order.append(code)
                    waiting.pop()
                elif after not in state:
                    state[after] = 1
                    waiting.append((after, iter(calls[after])))
                elif state[after] == 1:
                    self.recursive.add(after)
        self.exact = not self.recursive and not any(
            it.op == "call" and it.target is None for code in self.order for it in self.bodies[code].steps())

    def changes(self, it: Step) -> int:
        """The machine's registers that a step may change beside its own."""
        if it.op in ROUTINES:
            return routines.CHANGES
        if it.op == "service":
            return 1 << 2 if it.offset == 1 else 0
        if it.op != "call":
            return 0
        given = sum(1 << 2 + at for at in range(min(4, len(it.args)))) | 1 << 2 | 1 << LINK
        return given | (self.clobbers.get(it.target, CHANGED) if it.target is not None else CHANGED)

    def _allocate(self, code: Code) -> Coloring:
        """Gives a function its registers."""
        body = self.bodies[code]
        fixed = Settler(body).run()
        leaf = is_leaf(body)
        colors = allocate(body, fixed, self.changes, code is self.main or not leaf, code is self.main)
        if code not in self.recursive:
            used = set(colors.color.values())
            mask = sum(1 << it for it in used if it in SCRATCH) | 1 << LINK
            mask |= sum(1 << 2 + at for at in range(len(body.parameters))) | 1 << 2
            for it in body.steps():
                mask |= self.changes(it)
            self.clobbers[code] = mask & CHANGED
        return colors

    def _emitter(self, code: Code, colors: Coloring, names: Labels) -> Emitter:
        """What emits a function, whose frame is laid."""
        body, main = self.bodies[code], code is self.main
        found = Emitter(body, colors, lambda it: names.of(it, code.unit), names.routine, main, is_leaf(body))
        found._lay()
        self.frames[code] = found.frame
        return found

    def _emit(self, code: Code, emitter: Emitter, names: Labels) -> list[Line]:
        """The rows of a function, where all frames are laid."""
        main = code is self.main
        limit = names.end if not self.exact and not main else ""
        return emitter.run(limit, main and any(self.frames.values()))

    def depth(self) -> Optional[int]:
        """The bytes of the deepest stack, where they are told."""
        if not self.exact:
            return None
        found: dict[Code, int] = {}
        for code in self.order:
            deepest = max((found[it] for it in _calls(self.bodies[code])), default=0)
            found[code] = self.frames[code] + deepest
        return found[self.main]

    def _write(self, things: list[Thing], lines: dict[Code, list[Line]], names: Labels) -> Finished:
        """The program's text."""
        from romp801.compiler.layout import Layout

        return Layout(self, things, lines, names).write()


ROUTINE_NAMES = {
    "mul": "multiply",
    "divu": "divide",
    "remu": "remainder",
    "divs": "divide_signed",
    "rems": "remainder_signed",
}


class Labels:
    """How things are written in the parts of a program: no two have one label."""

    def __init__(self, whole: Whole, things: list[Thing], ops: set[str]) -> None:
        self.units = list(dict.fromkeys(it.unit for it in things if it.unit is not None))
        self.taken: set[str] = set()
        self.exported: set[Thing] = set()
        self.number = 0
        self.labels = {it: self.free(it.name) for it in things if it.name not in ("text", "first")}
        for it in things:
            if it not in self.labels:
                self.labels[it] = self.numbered("D")
        self.routines = {it: self.free(ROUTINE_NAMES[it]) for it in routines.wanted(ops & ROUTINES)}
        self.end = self.free("stack_end")

    def free(self, wanted: str) -> str:
        """A label that isn't taken, and isn't too long."""
        wanted = wanted.replace("$", "_")
        found, number = wanted[:LONGEST_NAME], 1
        while found in self.taken:
            number += 1
            found = f"{wanted[:26]}_{number}"
        self.taken.add(found)
        return found

    def numbered(self, letter: str) -> str:
        """A label for what has no name."""
        while True:
            self.number += 1
            found = f"{letter}{self.number}"
            if found not in self.taken:
                self.taken.add(found)
                return found

    def of(self, it: Thing, unit: Optional[int]) -> str:
        """The label of a thing in a part."""
        if it.unit != unit:
            self.exported.add(it)
        return self.labels[it]

    def routine(self, op: str) -> str:
        """The label of a routine."""
        return self.routines[op]


def _ops(body: Body) -> Iterator[str]:
    for it in body.steps():
        yield it.op


def is_leaf(body: Body) -> bool:
    """Whether a function calls nothing."""
    return not any(it.op == "call" or it.op in ROUTINES for it in body.steps())


def _calls(body: Body) -> Iterator[Code]:
    for it in body.steps():
        if it.op == "call" and it.target is not None:
            yield it.target


def _things(body: Body) -> Iterator[Thing]:
    """The things that a body names."""
    for block in body.blocks:
        for it in block.steps:
            if it.target is not None:
                yield it.target
            if isinstance(it.near, Thing):
                yield it.near
            for value in it.values():
                if isinstance(value, Symbol):
                    yield value.thing
        for one in (block.end.a, block.end.b):
            if isinstance(one, Symbol):
                yield one.thing

