"""Expressions: their types, their conversions, and what is refused of them."""
from __future__ import annotations

import copy
import re
from typing import Any, Callable

from romp801.compiler import kinds, tree
from romp801.compiler.code import Code, Data, compare, compute, signed, word
from romp801.compiler.faults import Place, refused
from romp801.compiler.kinds import Array, Function, Int, Pointer, Record, Type
from romp801.compiler.names import Meaning, Names, decayed
from romp801.compiler.tree import Expr, Lvalue, Number, Variable

ARITHMETIC = {"+": "add", "-": "sub", "*": "mul", "&": "and", "|": "or", "^": "xor", "<<": "shl", ">>": "shr"}
COMPARISONS = {"==": "eq", "!=": "ne", "<": "lt", ">": "gt", "<=": "le", ">=": "ge"}
SERVICES = {"commit": (0, 0), "print_byte": (1, 1), "give_up": (2, 0)}
LITERAL = re.compile(r"(0[xX][0-9a-fA-F]+|0[bB][01]+|[0-9]+)([uU]?[lL]?[lL]?|[lL]{1,2}[uU])$")

UNKNOWN = {"Compound": "a block as a value", "InitList": "a list in braces as a value"}
"""What parts of a tree are that no reader is for, in words."""


class Expressions:
    """Makes expressions of the parser's tree. `text` makes the data of a string."""

    def __init__(self, names: Names, text: Callable[[bytes], Data]) -> None:
        self.names, self.text = names, text
        self.made: Callable[[Any, Type, Any], Expr]
        names.value_of = self.constant

    def constant(self, node: Any) -> int:
        """The number of a constant expression."""
        it = self.value(node)
        if not isinstance(it, Number) or not isinstance(it.type, Int):
            raise refused(node, "this has to be a constant")
        return it.value

    def any(self, node: Any) -> Expr:
        """An expression as it stands: a place is one."""
        reader = getattr(self, f"_{type(node).__name__}", None)
        if reader is None:
            name = type(node).__name__
            raise refused(node, f"{UNKNOWN.get(name, name)} isn't compiled")
        found: Expr = reader(node)
        return found

    def value(self, node: Any) -> Expr:
        """An expression's value: an array or a function is its address."""
        return self.content(node, self.any(node))

    def scalar(self, node: Any) -> Expr:
        """A value that is a number or an address."""
        it = self.value(node)
        if not isinstance(it.type, (Int, Pointer)):
            raise refused(node, f"a number or an address is due, and not {it.type}")
        return it

    def integer(self, node: Any) -> Expr:
        """A value that is a number."""
        it = self.value(node)
        if not isinstance(it.type, Int):
            raise refused(node, f"a number is due, and not {it.type}")
        return it

    def content(self, node: Any, it: Expr) -> Expr:
        """What a place holds, or its address."""
        if not isinstance(it, (tree.Named, tree.At, tree.Made)):
            return it
        if isinstance(it.type, (Array, Function)):
            return self.address(it, decayed(it.type))
        self.names.complete(node, it.type, "a value")
        return tree.Content(it.type, it.place, it)

    def address(self, it: Lvalue, its: Type) -> Expr:
        """The address of a place."""
        if isinstance(it, tree.At):
            base = it.address
            if isinstance(base, Number):
                return Number(its, it.place, word(base.value + it.offset))
            if isinstance(base, tree.Address):
                return tree.Address(its, it.place, base.thing, base.offset + it.offset)
            if not it.offset:
                return retyped(base, its)
            return tree.Binary(its, it.place, "add", base, Number(kinds.INT, it.place, it.offset))
        return tree.PlaceOf(its, it.place, it)

    def place(self, node: Any) -> Lvalue:
        """An expression that is a place."""
        it = self.any(node)
        if not isinstance(it, (tree.Named, tree.At, tree.Made)):
            raise refused(node, "this is no place")
        return it

    def convert(self, node: Any, it: Expr, to: Type, cast: bool = False) -> Expr:
        """A value as another type, as it is assigned or cast."""
        of = it.type
        if isinstance(to, kinds.Void) and cast:
            return retyped(it, to)
        if isinstance(to, Int) and (isinstance(of, Int) or isinstance(of, Pointer) and (cast or to.truth)):
            return as_int(it, to)
        if isinstance(to, Pointer):
            if isinstance(of, Pointer) and (cast or fits(to, of)):
                return retyped(it, to)
            if isinstance(of, Int) and (cast or tree.is_zero(it)):
                return retyped(as_int(it, kinds.UINT), to)
        if isinstance(to, Record) and to is of and not cast:
            return it
        raise refused(node, f"{of} doesn't become {to}" + ("" if cast else " by itself"))

    def _Constant(self, node: Any) -> Expr:
        place = Place.of(node)
        if node.type == "string":
            data = self.text(string_of(node) + b"\0")
            return tree.At(data.type, place, tree.Address(Pointer(data.type), place, data))
        if node.type == "char":
            text = string_of(node)
            if len(text) != 1:
                raise refused(node, "a character of one byte is due")
            return Number(kinds.INT, place, text[0])
        found = LITERAL.match(node.value)
        if "'" in node.value:
            raise refused(node, "a character of one byte is due")
        if not found:
            raise refused(node, f"{node.value} isn't compiled: numbers are integers of 32 bits")
        digits, suffix = found[1], found[2].lower()
        octal = digits[0] == "0" and digits.isdigit()
        if octal and not re.fullmatch("[0-7]*", digits):
            raise refused(node, f"{node.value} is no number")
        value = int(digits, 8 if octal else 0)
        if value >> 32 or "ll" in suffix:
            raise refused(node, f"{node.value}: integers of 64 bits aren't compiled")
        if value > 0x7FFFFFFF and "u" not in suffix and digits.isdigit() and not octal:
            raise refused(node, f"{node.value} is no int, and integers of 64 bits aren't compiled: write {value}u")
        return Number(kinds.UINT if "u" in suffix or value > 0x7FFFFFFF else kinds.INT, place, value)

    def _ID(self, node: Any) -> Expr:
        place = Place.of(node)
        it = self.names.find(node, node.name)
        if isinstance(it, Variable):
            return tree.Named(it.type, place, it)
        if isinstance(it, Meaning):
            if it.what == "constant":
                return Number(it.type, place, it.value)
            if it.what == "record":
                return tree.At(it.type, place, Number(Pointer(it.type), place, it.value))
            raise refused(node, f"{node.name} is a type")
        return tree.At(it.type, place, tree.Address(Pointer(it.type), place, it))

    def _StructRef(self, node: Any) -> Expr:
        place = Place.of(node)
        if node.type == "->":
            base = self.value(node.name)
            if not isinstance(base.type, Pointer):
                raise refused(node, f"-> wants an address, and not {base.type}")
            of: Lvalue = tree.At(base.type.to, place, base)
        else:
            found_place = self.any(node.name)
            is_place = isinstance(found_place, (tree.Named, tree.At, tree.Made))
            of = found_place if is_place else self._kept(node, found_place)  # type: ignore[assignment]
        if not isinstance(of.type, Record):
            raise refused(node, f"{of.type} has no members")
        found = of.type.find(node.field.name)
        if found is None:
            raise refused(node, f"{of.type} has no member {node.field.name}")
        if isinstance(of, tree.At):
            return tree.At(found.type, place, of.address, of.offset + found.offset)
        if isinstance(of, tree.Named):
            return tree.Named(found.type, place, of.variable, of.offset + found.offset)
        return tree.At(found.type, place, self.address(of, Pointer(of.type)), found.offset)

    def _kept(self, node: Any, it: Expr) -> Lvalue:
        """A record that is a value, as a place of its own."""
        if not isinstance(it.type, Record):
            raise refused(node, f"{it.type} has no members")
        return tree.Made(it.type, it.place, Variable("made", it.type, True), [(0, it.type, it)])

    def _ArrayRef(self, node: Any) -> Expr:
        one, other = self.value(node.name), self.value(node.subscript)
        if not isinstance(one.type, Pointer) and not isinstance(other.type, Pointer):
            raise refused(node, f"[] wants an array or an address, and not {one.type}")
        return self._pointed(node, self._sum(node, "+", one, other))

    def _pointed(self, node: Any, it: Expr) -> Expr:
        """What lies at an address."""
        if not isinstance(it.type, Pointer):
            raise refused(node, f"an address is due, and not {it.type}")
        to, offset = it.type.to, 0
        while isinstance(it, tree.Binary) and it.op == "add" and isinstance(it.other, Number):
            offset, it = offset + signed(word(it.other.value)), it.one
        if isinstance(it, tree.PlaceOf) and isinstance(it.of, tree.Named):
            return tree.Named(to, Place.of(node), it.of.variable, it.of.offset + offset)
        return tree.At(to, Place.of(node), it, offset)

    def _UnaryOp(self, node: Any) -> Expr:
        place, op = Place.of(node), node.op
        if op in ("sizeof", "_Alignof"):
            return self._sizeof(node)
        if op == "&":
            return self._address(node)
        if op == "*":
            return self._dereferenced(node)
        if op in ("++", "--", "p++", "p--"):
            to = self.place(node.expr)
            one = Number(kinds.INT, place, 1)
            return self._update(node, to, op[-1], one, before=op[0] == "p")
        if op == "!":
            return self.negated(node, self.scalar(node.expr))
        it = self.integer(node.expr)
        assert isinstance(it.type, Int)
        its = kinds.promoted(it.type)
        it = as_int(it, its)
        if op == "+":
            return retyped(it, its)
        if op not in ("-", "~"):
            raise refused(node, f"{op} isn't compiled")
        word_op = "neg" if op == "-" else "not"
        if isinstance(it, Number):
            return Number(its, place, its.wrap(compute(word_op, word(it.value)) or 0))
        return tree.Unary(its, place, word_op, it)

    def negated(self, node: Any, it: Expr) -> Expr:
        """Whether a truth is none."""
        truth = tree.truth_of(it)
        if truth is not None:
            return Number(kinds.INT, Place.of(node), int(not truth))
        return tree.Not(kinds.INT, Place.of(node), it)

    def _sizeof(self, node: Any) -> Expr:
        if type(node.expr).__name__ == "Typename":
            its = self.names.type_of(node.expr)
        else:
            its = self.any(node.expr).type
        self.names.complete(node, its, "what has a size")
        if isinstance(its, Array) and its.count is None:
            raise refused(node, f"the size of {its} isn't told")
        return Number(kinds.UINT, Place.of(node), its.size if node.op == "sizeof" else its.align)

    def _address(self, node: Any) -> Expr:
        it = self.any(node.expr)
        if isinstance(it, tree.At) and isinstance(it.type, Function):
            return self.address(it, Pointer(it.type))
        if not isinstance(it, (tree.Named, tree.At, tree.Made)):
            raise refused(node, "only a place has an address")
        return self.address(it, Pointer(it.type))

    def _dereferenced(self, node: Any) -> Expr:
        return self._pointed(node, self.value(node.expr))

    def _BinaryOp(self, node: Any) -> Expr:
        if node.op in ("&&", "||"):
            return self._both(node)
        one, other = self.value(node.left), self.value(node.right)
        if node.op in COMPARISONS:
            return self._compared(node, one, other)
        if node.op in ("+", "-") and (isinstance(one.type, Pointer) or isinstance(other.type, Pointer)):
            return self._sum(node, node.op, one, other)
        return self.arithmetic(node, node.op, one, other)

    def _both(self, node: Any) -> Expr:
        place, one, other = Place.of(node), self.scalar(node.left), self.scalar(node.right)
        first = tree.truth_of(one)
        decides = node.op == "||"
        if first is decides:
            return Number(kinds.INT, place, int(decides))
        second = tree.truth_of(other)
        if first is not None and second is not None:
            return Number(kinds.INT, place, int(second))
        return tree.Both(kinds.INT, place, node.op, one, other)

    def arithmetic(self, node: Any, op: str, one: Expr, other: Expr) -> Expr:
        """Arithmetic of two integers."""
        left, right = one.type, other.type
        if not isinstance(left, Int) or not isinstance(right, Int):
            raise refused(node, f"{op} isn't had of {one.type} and {other.type}")
        if op in ("<<", ">>"):
            its = kinds.promoted(left)
            one, other = as_int(one, its), as_int(other, kinds.promoted(right))
        else:
            its = kinds.common(left, right)
            one, other = as_int(one, its), as_int(other, its)
        name = {"/": "div", "%": "rem"}.get(op) or ARITHMETIC[op]
        if name in ("div", "rem"):
            name += "s" if its.signed else "u"
        if name == "shr" and its.signed:
            name = "sar"
        if isinstance(one, Number) and isinstance(other, Number):
            found = compute(name, word(one.value), word(other.value))
            if found is not None:
                return Number(its, Place.of(node), its.wrap(found))
        return tree.Binary(its, Place.of(node), name, one, other)

    def _sum(self, node: Any, op: str, one: Expr, other: Expr) -> Expr:
        """An address and a number, or the distance of two addresses."""
        place = Place.of(node)
        if isinstance(one.type, Pointer) and isinstance(other.type, Pointer) and op == "-":
            size = self._step(node, one.type)
            if not kinds.agree(one.type, other.type):
                raise refused(node, f"{one.type} and {other.type} have no distance")
            apart = tree.Binary(kinds.INT, place, "sub", retyped(one, kinds.INT), retyped(other, kinds.INT))
            return apart if size == 1 else tree.Binary(kinds.INT, place, "divs", apart, Number(kinds.INT, place, size))
        if isinstance(other.type, Pointer) and op == "+":
            one, other = other, one
        if not isinstance(one.type, Pointer) or not isinstance(other.type, Int):
            raise refused(node, f"{op} isn't had of {one.type} and {other.type}")
        size = self._step(node, one.type)
        far = self.arithmetic(node, "*", as_int(other, kinds.INT), Number(kinds.INT, place, size))
        if op == "-":
            if not isinstance(far, Number):
                return tree.Binary(one.type, place, "sub", one, far)
            far = Number(far.type, place, kinds.INT.wrap(-far.value))
        if isinstance(far, Number):
            return moved(one, far.value)
        if isinstance(one, tree.Binary) and one.op == "add" and isinstance(one.other, Number):
            inner = tree.Binary(one.type, place, "add", one.one, far)
            return tree.Binary(one.type, place, "add", inner, one.other)
        return tree.Binary(one.type, place, "add", one, far)

    def _step(self, node: Any, its: Pointer) -> int:
        """How far apart the things are that an address may point to."""
        if isinstance(its.to, kinds.Void):
            return 1
        return self.names.complete(node, its.to, "what an address steps over").size

    def _compared(self, node: Any, one: Expr, other: Expr) -> Expr:
        place, name = Place.of(node), COMPARISONS[node.op]
        if isinstance(one.type, Pointer) or isinstance(other.type, Pointer):
            for it, beside in ((one, other), (other, one)):
                if isinstance(it.type, Int) and not (tree.is_zero(it) and isinstance(beside.type, Pointer)):
                    raise refused(node, f"{one.type} isn't compared with {other.type}")
            one, other = retyped(one, kinds.UINT), retyped(other, kinds.UINT)
        if not isinstance(one.type, Int) or not isinstance(other.type, Int):
            raise refused(node, f"{one.type} isn't compared with {other.type}")
        its = kinds.common(one.type, other.type)
        one, other = as_int(one, its), as_int(other, its)
        if not its.signed and name not in ("eq", "ne"):
            name += "u"
        if isinstance(one, Number) and isinstance(other, Number):
            return Number(kinds.INT, place, int(compare(name, word(one.value), word(other.value))))
        return tree.Comparison(kinds.INT, place, name, one, other)

    def _Assignment(self, node: Any) -> Expr:
        to = self.place(node.lvalue)
        if isinstance(to.type, (Array, Function)):
            raise refused(node, f"{to.type} isn't assigned")
        value = self.value(node.rvalue)
        if node.op == "=":
            return tree.Assigned(to.type, Place.of(node), to, self.convert(node, value, to.type))
        return self._update(node, to, node.op[:-1], value)

    def _update(self, node: Any, to: Lvalue, op: str, value: Expr, before: bool = False) -> Expr:
        """A place gets what an operation makes of what it has."""
        place = Place.of(node)
        if isinstance(to.type, Pointer):
            if op not in ("+", "-") or not isinstance(value.type, Int):
                raise refused(node, f"{op}= isn't had of {to.type} and {value.type}")
            size = Number(kinds.INT, place, self._step(node, to.type))
            far = self.arithmetic(node, "*", as_int(value, kinds.INT), size)
            return tree.Updated(to.type, place, to, ARITHMETIC[op], far, to.type, before)
        dummy = tree.Content(to.type, place, to)
        it = self.arithmetic(node, op, dummy, value)
        assert isinstance(it, tree.Binary)
        return tree.Updated(to.type, place, to, it.op, it.other, it.type, before)

    def _TernaryOp(self, node: Any) -> Expr:
        truth = self.scalar(node.cond)
        one, other = self.value(node.iftrue), self.value(node.iffalse)
        its = self._either(node, one, other)
        if not isinstance(its, kinds.Void):
            cast = isinstance(its, Pointer)
            one, other = self.convert(node, one, its, cast), self.convert(node, other, its, cast)
        known = tree.truth_of(truth)
        if known is not None:
            return one if known else other
        return tree.Choice(its, Place.of(node), truth, one, other)

    def _either(self, node: Any, one: Expr, other: Expr) -> Type:
        """The type of one value or another."""
        if isinstance(one.type, Int) and isinstance(other.type, Int):
            return kinds.common(one.type, other.type)
        for zero in (is_null, tree.is_zero):
            for it, beside in ((one, other), (other, one)):
                if isinstance(it.type, Pointer) and zero(beside):
                    return it.type
        if isinstance(one.type, Pointer) and isinstance(other.type, Pointer) and fits(one.type, other.type):
            return other.type if isinstance(other.type.to, kinds.Void) else one.type
        if one.type is other.type or isinstance(one.type, kinds.Void):
            return one.type
        if isinstance(other.type, kinds.Void):
            return other.type
        raise refused(node, f"a value is {one.type} or {other.type}")

    def _Cast(self, node: Any) -> Expr:
        to = self.names.type_of(node.to_type)
        return retyped(self.convert(node.to_type, self.value(node.expr), to, cast=True), to)

    def _CompoundLiteral(self, node: Any) -> Expr:
        return self.made(node, self.names.type_of(node.type), node.init)

    def _ExprList(self, node: Any) -> Expr:
        found = self.value(node.exprs[0])
        for it in node.exprs[1:]:
            value = self.value(it)
            found = tree.Pair(value.type, Place.of(node), found, value)
        return found

    def _FuncCall(self, node: Any) -> Expr:
        place = Place.of(node)
        given = [self.value(it) for it in node.args.exprs] if node.args else []
        if type(node.name).__name__ == "ID" and node.name.name in SERVICES:
            return self._service(node, given)
        of = self.value(node.name)
        its = of.type.to if isinstance(of.type, Pointer) else of.type
        if not isinstance(its, Function):
            raise refused(node, f"{of.type} is no function")
        args = given
        if its.parameters is not None:
            if len(its.parameters) != len(given):
                raise refused(
                    node, f"values that are given: {len(given)}; values that are taken: {len(its.parameters)}"
                )
            args = [self.convert(node, it, to) for it, to in zip(given, its.parameters)]
        else:
            args = [as_int(it, kinds.promoted(it.type)) if isinstance(it.type, Int) else it for it in given]
        if not isinstance(its.result, kinds.Void):
            self.names.complete(node, its.result, "a result")
        if isinstance(of, tree.Address) and isinstance(of.thing, Code) and not of.offset:
            return tree.Call(its.result, place, of.thing, args)
        return tree.Call(its.result, place, of, args)

    def _service(self, node: Any, given: list[Expr]) -> Expr:
        """A call of the machine."""
        number, count = SERVICES[node.name.name]
        if len(given) != count:
            raise refused(node, f"{node.name.name} takes {count or 'no'} value{'' if count == 1 else 's'}")
        args = [self.convert(node, it, kinds.UINT) for it in given]
        return tree.Service(kinds.VOID, Place.of(node), number, args)


def retyped(it: Expr, its: Type) -> Expr:
    """The same value under another type of as many bits."""
    if it.type is its:
        return it
    found = copy.copy(it)
    found.type = its
    if isinstance(found, Number) and isinstance(its, Int):
        found.value = its.wrap(found.value)
    return found


def as_int(it: Expr, to: Int) -> Expr:
    """A number as another type."""
    if it.type == to:
        return it
    if isinstance(it, Number):
        return Number(to, it.place, to.wrap(it.value))
    if isinstance(it, tree.Address) and to.truth:
        return Number(to, it.place, 1)
    if to.size == 4 and it.type.size == 4:
        return retyped(it, to)
    return tree.Converted(to, it.place, it)


def moved(it: Expr, far: int) -> Expr:
    """An address so many bytes on."""
    if isinstance(it, Number):
        return Number(it.type, it.place, word(it.value + far))
    if isinstance(it, tree.Address):
        return tree.Address(it.type, it.place, it.thing, it.offset + far)
    if not far:
        return it
    if isinstance(it, tree.PlaceOf) and isinstance(it.of, tree.Named):
        of = tree.Named(it.of.type, it.of.place, it.of.variable, it.of.offset + far)
        return tree.PlaceOf(it.type, it.place, of)
    if isinstance(it, tree.Binary) and it.op == "add" and isinstance(it.other, Number):
        sum_of = kinds.INT.wrap(it.other.value + far)
        return tree.Binary(it.type, it.place, "add", it.one, Number(kinds.INT, it.place, sum_of))
    return tree.Binary(it.type, it.place, "add", it, Number(kinds.INT, it.place, far))


def fits(to: Pointer, of: Type) -> bool:
    """Whether an address is assigned without a cast: to one of the same type but for a sign, and to and from void."""
    if not isinstance(of, Pointer):
        return False
    return isinstance(to.to, kinds.Void) or isinstance(of.to, kinds.Void) or kinds.agree(to.to, of.to)


def is_null(it: Expr) -> bool:
    """Whether it is 0, or that as an address of anything."""
    return tree.is_zero(it) and not (isinstance(it.type, Pointer) and not isinstance(it.type.to, kinds.Void))


ESCAPE = re.compile(rb"\\([0-7]{1,3}|x[0-9a-fA-F]+|.)", re.S)
ESCAPES = {b"n": 10, b"t": 9, b"r": 13, b"0": 0, b"a": 7, b"b": 8, b"f": 12, b"v": 11, b"e": 27}


def string_of(node: Any) -> bytes:
    """The bytes of a string or of a character."""
    text: str = node.value
    quote = text[-1]
    if text[0] != quote:
        raise refused(node, "wide characters aren't compiled")

    def escaped(found: "re.Match[bytes]") -> bytes:
        its = found[1]
        if its[:1] in b"01234567" or its[:1] == b"x" and its[1:]:
            value = int(its[1:], 16) if its[:1] == b"x" else int(its, 8)
            if value > 255:
                raise refused(node, f"{found[0].decode()} is no byte")
            return bytes([value])
        if its in ESCAPES:
            return bytes([ESCAPES[its]])
        if its in b"\\'\"?":
            return its
        raise refused(node, f"{found[0].decode(errors='replace')} isn't compiled")

    return ESCAPE.sub(escaped, text[1:-1].encode("latin-1"))
