"""What names mean, and the types that declarations tell."""
from __future__ import annotations

from typing import Any, Callable, NamedTuple, Optional, Union

from romp801.compiler import kinds
from romp801.compiler.code import Thing
from romp801.compiler.faults import Refused, refused
from romp801.compiler.kinds import Array, Function, Int, Pointer, Record, Type
from romp801.compiler.tree import Variable


class Meaning(NamedTuple):
    """A type's name, a constant of an enumeration, or a record of a segment, which lies at an address."""

    what: str
    type: Type
    value: int = 0


Entity = Union[Meaning, Variable, Thing]
INTEGERS: dict[str, Int] = {
    "_Bool": kinds.BOOL,
    "char": kinds.CHAR,
    "signed char": kinds.SCHAR,
    "unsigned char": kinds.UCHAR,
    "short": kinds.SHORT,
    "unsigned short": kinds.USHORT,
    "int": kinds.INT,
    "unsigned int": kinds.UINT,
    "long": Int(4, True, "long"),
    "unsigned long": Int(4, False, "unsigned long"),
}
NOT_HAD = {
    "float": "numbers with a fraction",
    "double": "numbers with a fraction",
    "_Complex": "complex numbers",
    "__int128": "128 bits",
}
LARGEST = 1 << 28


class Names:
    """The names of a file, of the block at hand and of those around it, and the types that they tell. `value_of` makes
    a number of a constant expression, and `type_in` tells an expression's type."""

    def __init__(self) -> None:
        self.scopes: list[dict[str, Entity]] = [{}]
        self.tags: list[dict[str, Record | Int]] = [{}]
        self.value_of: Callable[[Any], int]
        self.volatile = False
        self.known: dict[int, tuple[Any, Type]] = {}

    def enter(self) -> None:
        """A block begins."""
        self.scopes.append({})
        self.tags.append({})

    def leave(self) -> None:
        """A block is over."""
        self.scopes.pop()
        self.tags.pop()

    def find(self, node: Any, name: str) -> Entity:
        """What a name means here."""
        for scope in reversed(self.scopes):
            if name in scope:
                return scope[name]
        raise refused(node, f"{name} isn't declared")

    def put(self, node: Any, name: str, it: Entity) -> None:
        """Gives a name its meaning in the block at hand."""
        was = self.scopes[-1].get(name)
        if was is not None and was is not it and was != it:
            raise refused(node, f"{name} is declared already")
        self.scopes[-1][name] = it

    def type_of(self, node: Any) -> Type:
        """The type that a declaration tells."""
        kind = type(node).__name__
        self.volatile = self.volatile or "volatile" in (getattr(node, "quals", None) or [])
        aligned(node)
        reader = getattr(self, f"_{kind}", None)
        if reader is None:
            raise refused(node, f"{kind} isn't compiled")
        found: Type = reader(node)
        return found

    def complete(self, node: Any, its: Type, what: str) -> Type:
        """A type that an object may have."""
        if isinstance(its, Function):
            raise refused(node, f"{what} can't be a function")
        if isinstance(its, kinds.Void) or isinstance(its, Record) and not its.laid:
            raise refused(node, f"{what} can't be of the type {its}, whose size isn't told")
        if isinstance(its, Array):
            self.complete(node, its.of, what)
        return its

    def _TypeDecl(self, node: Any) -> Type:
        return self.type_of(node.type)

    _Typename = _Decl = _TypeDecl

    def _PtrDecl(self, node: Any) -> Type:
        return Pointer(self.type_of(node.type))

    def _ArrayDecl(self, node: Any) -> Type:
        of = self.complete(node, self.type_of(node.type), "an element of an array")
        if isinstance(of, Array) and of.count is None:
            raise refused(node, "an array of arrays has to tell how many elements those have")
        if node.dim is None:
            return Array(of, None)
        try:
            count = self.value_of(node.dim)
        except Refused as fault:
            raise refused(node, "the number of an array's elements has to be a constant") from fault
        if count < 0 or count * of.size > LARGEST:
            raise refused(node, f"an array of {count} elements isn't compiled")
        return Array(of, count)

    def _FuncDecl(self, node: Any) -> Type:
        result = self.type_of(node.type)
        if isinstance(result, (Array, Function)):
            raise refused(node, f"a function can't return {result}")
        if node.args is None:
            return Function(result, None)
        found: list[Type] = []
        for it in node.args.params:
            name = type(it).__name__
            if name == "EllipsisParam":
                raise refused(node, "a function with a varying number of parameters isn't compiled")
            if name == "ID":
                raise refused(it, "parameters have to be declared with their types")
            its = self.type_of(it)
            if isinstance(its, kinds.Void) and len(node.args.params) == 1:
                return Function(result, ())
            found.append(self.complete(it, decayed(its), "a parameter"))
        return Function(result, tuple(found))

    def _IdentifierType(self, node: Any) -> Type:
        words = list(node.names)
        for it in words:
            if it in NOT_HAD:
                raise refused(node, f"{it}: {NOT_HAD[it]} aren't compiled")
        if words == ["void"]:
            return kinds.VOID
        if len(words) == 1 and words[0] not in ("signed", "unsigned", *INTEGERS):
            it = self.find(node, words[0])
            if isinstance(it, Meaning) and it.what == "type":
                return it.type
            raise refused(node, f"{words[0]} is no type")
        if words.count("long") > 1:
            raise refused(node, "long long: integers of 64 bits aren't compiled")
        base = next((it for it in ("char", "short", "long", "_Bool") if it in words), "int")
        if base == "char":
            sign = "signed " if "signed" in words else "unsigned " if "unsigned" in words else ""
        else:
            sign = "unsigned " if "unsigned" in words else ""
        return INTEGERS[sign + base]

    def _tag(self, node: Any, defines: bool) -> Optional[Union[Record, Int]]:
        """What a tag means, in the block at hand where it is defined there."""
        for scope in self.tags[-1:] if defines else reversed(self.tags):
            if node.name in scope:
                return scope[node.name]
        return None

    def _Struct(self, node: Any) -> Type:
        if id(node) in self.known:
            return self.known[id(node)][1]
        word = "union" if type(node).__name__ == "Union" else "struct"
        it = self._tag(node, node.decls is not None) if node.name else None
        if it is None:
            it = Record(word, node.name)
            if node.name:
                self.tags[-1][node.name] = it
        if not isinstance(it, Record) or it.word != word:
            raise refused(node, f"{node.name} isn't a {word}")
        if node.decls is not None:
            if it.laid:
                raise refused(node, f"{it} is defined already")
            it.lay(self._members(node))
            self.known[id(node)] = node, it
        return it

    _Union = _Struct

    def _members(self, node: Any) -> list[tuple[Optional[str], Type]]:
        """The members of a struct or a union."""
        found: list[tuple[Optional[str], Type]] = []
        for it in node.decls:
            if type(it).__name__ in ("Pragma", "StaticAssert"):
                raise refused(it, "this isn't compiled between members")
            aligned(it)
            if getattr(it, "bitsize", None) is not None:
                raise refused(it, "bit fields aren't compiled")
            its = self.complete(it, self.type_of(it.type), "a member")
            if isinstance(its, Array) and its.count is None:
                raise refused(it, "a member that is an array has to tell its number of elements")
            if it.name is None and not isinstance(its, Record):
                continue
            if it.name is not None and any(name == it.name for name, _ in found):
                raise refused(it, f"there are two members {it.name}")
            found.append((it.name, its))
        return found

    def _Enum(self, node: Any) -> Type:
        if node.values is None:
            it = self._tag(node, False)
            if not isinstance(it, Int):
                raise refused(node, f"enum {node.name} isn't declared")
            return it
        if id(node) in self.known:
            return self.known[id(node)][1]
        at, least = 0, 0
        for one in node.values.enumerators:
            if one.value is not None:
                at = self.value_of(one.value)
            if not kinds.INT.holds(at):
                raise refused(one, f"{one.name} is {at}, which no int is")
            self.put(one, one.name, Meaning("constant", kinds.INT, at))
            least = min(least, at)
            at += 1
        its = Int(4, least < 0, f"enum {node.name or '{..}'}")
        if node.name:
            self.tags[-1][node.name] = its
        self.known[id(node)] = node, its
        return its


def aligned(node: Any) -> None:
    """Refuses an alignment that a declaration tells."""
    if getattr(node, "align", None):
        raise refused(node, "an alignment of its own isn't compiled")


def decayed(its: Type) -> Type:
    """What a type is as a value: an array and a function are addresses."""
    if isinstance(its, Array):
        return Pointer(its.of)
    return Pointer(its) if isinstance(its, Function) else its
