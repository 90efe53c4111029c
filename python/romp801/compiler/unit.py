"""A file of C: what it declares, and the functions and data that it has."""
from __future__ import annotations

from typing import Any, Iterable, NamedTuple, Optional

from romp801.compiler import kinds
from romp801.compiler.code import Code, Data, Thing
from romp801.compiler.expressions import SERVICES, Expressions
from romp801.compiler.faults import Place, refused
from romp801.compiler.initial import Initial
from romp801.compiler.kinds import Array, Function, Int, Type
from romp801.compiler.names import Meaning, Names, aligned
from romp801.compiler.statements import Outer, Statements, hold
from romp801.compiler.tree import Expr, Made, Variable

KNOWN_PRAGMAS = ("segment",)


class Window(NamedTuple):
    """A register of segments, its segment, and whether it is also to write."""

    register: int
    segment: int
    how: str


class Known(NamedTuple):
    """A record: where it is in its segment, and its type."""

    segment: int
    register: int
    offset: int
    type: Type

    @property
    def address(self) -> int:
        """Where a program sees it."""
        return (self.register << 28) + self.offset


class Shared:
    """What all files of a program have in common: windows, records, and what has a name beyond its file."""

    def __init__(self) -> None:
        self.windows: dict[int, Window] = {}
        self.records: dict[str, Known] = {}
        self.ends: dict[int, int] = {}
        self.things: dict[str, Thing] = {}

    def window(self, node: Any, it: Window) -> None:
        """Takes a window, which may be told again."""
        was = self.windows.setdefault(it.register, it)
        if was != it:
            raise refused(node, f"the register {it.register} is that of segment {was.segment} {was.how} already")
        for other in self.windows.values():
            if other.segment == it.segment and other.register != it.register:
                raise refused(node, f"segment {it.segment} has the register {other.register} already")

    def record(self, node: Any, name: str, its: Type, window: Window) -> Known:
        """Lays a record, or finds it where another file has laid it."""
        was = self.records.get(name)
        if was is not None:
            if was.segment != window.segment or was.type.size != its.size or not same(was.type, its):
                raise refused(node, f"{name} is another record already")
            return was._replace(type=its)
        at = kinds.up(self.ends.get(window.segment, 0), its.align)
        if at + its.size > 1 << 19:
            raise refused(node, f"{name} ends behind 524,288 bytes, which no segment has")
        self.ends[window.segment] = at + its.size
        found = self.records[name] = Known(window.segment, window.register, at, its)
        return found


def functions_of(units: Iterable[Unit]) -> str:
    """The names of the functions that files define and that others may call."""
    found = [it.name for unit in units for it in unit.things if isinstance(it, Code) and it.body is not None]
    return ", ".join(found) or "none"


class Unit(Outer):
    """Reads a file's declarations and definitions, in their order."""

    def __init__(self, shared: Shared, number: int) -> None:
        self.shared, self.number = shared, number
        self.names = Names()
        self.reads = Expressions(self.names, self._text)
        self.reads.made = self._made
        self.things: list[Thing] = []
        self.own: dict[str, Thing] = {}
        self.strings: dict[bytes, Data] = {}
        self.segment: Optional[Window] = None

    def read(self, file: Any) -> None:
        """Takes all that a file has."""
        for node in file.ext:
            name = type(node).__name__
            if name == "Pragma":
                self._pragma(node)
            elif name == "FuncDef":
                self._function(node)
            elif name == "StaticAssert":
                hold(self.reads, node)
            elif name in ("Decl", "Typedef"):
                if not self.declare(node):
                    self._variable(node)
            else:
                raise refused(node, f"{name} isn't compiled")

    def _pragma(self, node: Any) -> None:
        """`segment NUMBER r|rw [REGISTER]`, or `segment none`; no other means something here."""
        words = (node.string or "").split()
        if not words or words[0] != "segment":
            return
        if words == ["segment", "none"]:
            self.segment = None
            return
        try:
            numbers = [int(it, 0) for it in (words[1], words[3] if len(words) > 3 else words[1])]
        except (IndexError, ValueError):
            numbers = []
        if len(words) not in (3, 4) or words[2] not in ("r", "rw") or len(numbers) != 2:
            raise refused(node, "the form is: #pragma segment NUMBER r|rw [REGISTER], or #pragma segment none")
        segment, register = numbers
        if not 1 <= segment <= 3839:
            raise refused(node, "segments are 1 to 3,839")
        if not 1 <= register <= 15:
            raise refused(node, "a register of segments is 1 to 15: write one behind r or rw")
        self.segment = Window(register, segment, words[2])
        self.shared.window(node, self.segment)

    def declare(self, node: Any) -> bool:
        """Takes a declaration of a type, of a function, of a record or of a variable elsewhere; says whether it was
        one."""
        aligned(node)
        storage = node.storage or []
        if "_Thread_local" in storage:
            raise refused(node, "a thread's own variable isn't compiled")
        if type(node).__name__ == "Typedef":
            self.names.put(node, node.name, Meaning("type", self.names.type_of(node.type)))
            return True
        if type(node.type).__name__ == "FuncDecl" or node.name is None or "extern" in storage:
            its = self.names.type_of(node.type)
            if node.name is None:
                return True
            if isinstance(its, Function):
                self._code(node, its, "static" in storage)
                return True
            if node.init is not None:
                raise refused(node, f"{node.name} is extern, so it has no value of its own here")
            self._elsewhere(node, its)
            return True
        return isinstance(self._aliased(node), Function)

    def _aliased(self, node: Any) -> Optional[Type]:
        """A function that is declared by the name of its type."""
        inner = node.type
        if type(inner).__name__ == "TypeDecl" and type(inner.type).__name__ == "IdentifierType":
            its = self.names.type_of(node.type)
            if isinstance(its, Function):
                self._code(node, its, "static" in (node.storage or []))
                return its
        return None

    def _elsewhere(self, node: Any, its: Type) -> None:
        """A record, where a segment is at hand, or a variable of this or another file."""
        if self.segment is not None and node.name not in self.own:
            self.names.complete(node, its, node.name)
            if isinstance(its, Array) and its.count is None:
                raise refused(node, f"{node.name} has to tell its number of elements")
            known = self.shared.record(node, node.name, its, self.segment)
            self.names.put(node, node.name, Meaning("record", known.type, known.address))
            return
        if node.name in self.shared.records:
            known = self.shared.records[node.name]
            if not same(known.type, its):
                raise refused(node, f"{node.name} is another record already")
            self.names.put(node, node.name, Meaning("record", known.type, known.address))
            return
        self.names.put(node, node.name, self._thing(node, its, False, Data))

    def _thing(self, node: Any, its: Type, static: bool, kind: type[Thing]) -> Thing:
        """A function or a variable of the file, or one that any file may have."""
        found = self.own.get(node.name)
        if found is None:
            found = None if static else self.shared.things.get(node.name)
            if found is None:
                found = kind(node.name, its, not static)
                found.place = Place.of(node)
                if not static:
                    self.shared.things[node.name] = found
            self.own[node.name] = found
        if type(found) is not kind or not same(found.type, its):
            raise refused(node, f"{node.name} is declared as {found.type}, and here as {its}")
        if not (isinstance(its, Function) and its.parameters is None or isinstance(its, Array) and its.count is None):
            found.type = its
        return found

    def _code(self, node: Any, its: Function, static: bool) -> Code:
        """Declares a function."""
        found = self._thing(node, its, static, Code)
        assert isinstance(found, Code)
        for scope in self.names.scopes[:1]:
            scope[node.name] = found
        if len(self.names.scopes) > 1:
            self.names.put(node, node.name, found)
        return found

    def _function(self, node: Any) -> None:
        """A function's definition."""
        if node.param_decls:
            raise refused(node, "parameters have to be declared with their types, between the parentheses")
        its = self.names.type_of(node.decl.type)
        if not isinstance(its, Function):
            raise refused(node, "this isn't a function")
        if its.parameters is None:
            its = Function(its.result, ())
        if node.decl.name in SERVICES:
            raise refused(node.decl, f"{node.decl.name} is a call of the machine")
        code = self._code(node.decl, its, "static" in (node.decl.storage or []))
        if code.body is not None or code.unit is not None:
            raise refused(node.decl, f"{code.name} is defined already")
        code.unit, code.type = self.number, its
        self.things.append(code)
        code.body = Statements(self.names, self.reads, self, code).function(node)

    def _variable(self, node: Any) -> None:
        """A variable of the file."""
        its = self.names.type_of(node.type)
        if node.name in self.shared.records:
            raise refused(node, f"{node.name} is a record, which has no definition")
        if self.segment is not None and "static" not in (node.storage or []):
            why = "so no other program would see it: write extern, or #pragma segment none in front of it"
            raise refused(node, f"{node.name} stands behind #pragma segment without extern, {why}")
        data = self._data(node, its, "static" in (node.storage or []))
        self.names.put(node, node.name, data)
        self._fill(data, its, node)

    def _data(self, node: Any, its: Type, static: bool) -> Data:
        found = self._thing(node, its, static, Data)
        assert isinstance(found, Data)
        if found.unit is not None and (found.unit != self.number or found.bytes and node.init is not None):
            raise refused(node, f"{node.name} is defined already")
        if found.unit is None:
            found.unit = self.number
            self.things.append(found)
        return found

    def _fill(self, data: Data, its: Type, node: Any) -> None:
        """Gives a variable its first values."""
        if node.init is None:
            if isinstance(its, Array) and its.count is None:
                raise refused(node, f"{node.name} has to tell its number of elements")
            self.names.complete(node, its, node.name)
            return
        self.names.complete(node, its, node.name)
        first = Initial(self.reads, its, node.init)
        data.type = first.type
        first.fill(data, node)

    def static(self, node: Any, function: str) -> None:
        """A variable of a function that stays."""
        its = self.names.type_of(node.type)
        data = self._own(f"{function}_{node.name}", its)
        self.names.put(node, node.name, data)
        self._fill(data, its, node)

    def image(self, its: Type) -> Data:
        """Data without a name."""
        return self._own("first", its)

    def _own(self, name: str, its: Type) -> Data:
        """Data of this file."""
        data = Data(name, its, False)
        data.unit = self.number
        self.things.append(data)
        return data

    def _text(self, text: bytes) -> Data:
        """The data of a string, once for all that are the same."""
        if text not in self.strings:
            data = self._own("text", Array(kinds.CHAR, len(text)))
            data.bytes = bytearray(text)
            self.strings[text] = data
        return self.strings[text]

    def _made(self, node: Any, its: Type, init: Any) -> Expr:
        """A value in braces with a type in front of it."""
        first = Initial(self.reads, its, init)
        if len(self.names.scopes) == 1:
            raise refused(node, "a value of a type in braces isn't compiled outside of functions")
        variable = Variable("made", first.type, True)
        return Made(first.type, None, variable, first.stores)


def same(one: Type, other: Type) -> bool:
    """Whether two declarations of one name agree, to the sign."""
    if isinstance(one, Int) and isinstance(other, Int):
        return one == other
    return kinds.agree(one, other)

