"""What a function's expressions become: steps on values."""
from __future__ import annotations

from typing import Optional, Union

from romp801.compiler import kinds, tree
from romp801.compiler.code import TURNED, Block, Body, Code, End, Reg, Slot, Spot, Step, Symbol, Value, word
from romp801.compiler.faults import Place
from romp801.compiler.kinds import Array, Int, Record, Type
from romp801.compiler.tree import Expr, Lvalue, Variable

INLINE = 64
"""Bytes that are copied without a loop."""


class Memory:
    """Where something is: so many bytes from an address on."""

    __slots__ = ("base", "offset")

    def __init__(self, base: Value, offset: int = 0) -> None:
        if isinstance(base, int):
            base, offset = word(base + offset), 0
        elif isinstance(base, Symbol):
            base, offset = Symbol(base.thing, base.offset + offset), 0
        elif isinstance(base, Spot):
            base, offset = Spot(base.slot, base.offset + offset), 0
        self.base, self.offset = base, offset

    def at(self, far: int) -> Memory:
        """So many bytes on."""
        return Memory(self.base, self.offset + far)


Where = Union[Reg, Memory]


class Lowering:
    """Makes steps of expressions, in the block at hand."""

    def __init__(self) -> None:
        self.body = Body()
        self.block = self.begin(Block())
        self.where: dict[Variable, Where] = {}
        self.place: Optional[Place] = None

    def begin(self, block: Block) -> Block:
        """What comes is in this block."""
        self.body.blocks.append(block)
        self.block = block
        return block

    def step(self, op: str, a: Optional[Value] = None, b: Optional[Value] = None, **more: object) -> Reg:
        """A step that gives a value."""
        to = Reg()
        self.add(Step(op, to, a, b, **more))  # type: ignore[arg-type]
        return to

    def add(self, it: Step) -> None:
        """The next step of the block."""
        it.place = self.place
        self.block.steps.append(it)

    def jump(self, to: Block) -> None:
        """The block ends, and another is next."""
        self.block.end = End("jump", self.place)
        self.block.end.then = to

    def branch(self, condition: str, a: Value, b: Value, then: Block, other: Block) -> None:
        """The block ends, and one of two is next."""
        end = self.block.end = End("branch", self.place)
        end.condition, end.a, end.b, end.then, end.other = condition, a, b, then, other

    def keep(self, variable: Variable) -> Where:
        """Gives a variable its place."""
        its = variable.type
        found: Where = Memory(Spot(Slot(max(its.size, 1), max(its.align, 4)))) if variable.kept else Reg(variable.name)
        self.where[variable] = found
        return found

    def locate(self, it: Lvalue) -> Where:
        """Where a place is."""
        if isinstance(it, tree.Made):
            found = self.keep(it.variable)
            assert isinstance(found, Memory)
            self.fill(found, it.type, it.stores)
            return found
        if isinstance(it, tree.Named):
            found = self.where.get(it.variable) or self.keep(it.variable)
            return found.at(it.offset) if isinstance(found, Memory) else found
        return Memory(self.value(it.address), it.offset)

    def load(self, of: Where, its: Type) -> Value:
        """What is there."""
        if isinstance(of, Reg):
            return of
        signed = isinstance(its, Int) and its.signed
        return self.step("load", of.base, offset=of.offset, size=its.size, signed=signed)

    def store(self, to: Where, its: Type, value: Value) -> None:
        """A place gets a value of its type."""
        if isinstance(to, Reg):
            self.add(Step("move", to, value))
        else:
            self.add(Step("store", None, to.base, value, size=its.size, offset=to.offset))

    def value(self, it: Expr) -> Value:
        """An expression's value; of a record it is where that lies."""
        outer, self.place = self.place, it.place or self.place
        found: Value = getattr(self, f"_{type(it).__name__}")(it)
        self.place = outer
        return found

    def effect(self, it: Expr) -> None:
        """An expression, for what it does."""
        if isinstance(it, tree.Pair):
            self.effect(it.one)
            self.effect(it.other)
        elif isinstance(it, (tree.Both, tree.Choice)):
            self._either(it)
        elif isinstance(it, tree.Updated):
            self._update(it)
        else:
            self.value(it)

    def _either(self, it: Union[tree.Both, tree.Choice]) -> None:
        """One of two, for what it does."""
        one, other, over = Block(), Block(), Block()
        if isinstance(it, tree.Choice):
            self.condition(it.truth, one, other)
        elif it.op == "&&":
            self.condition(it.one, one, over)
        else:
            self.condition(it.one, over, one)
        self.begin(one)
        self.effect(it.one if isinstance(it, tree.Choice) else it.other)
        self.jump(over)
        if isinstance(it, tree.Choice):
            self.begin(other)
            self.effect(it.other)
            self.jump(over)
        self.begin(over)

    def condition(self, it: Expr, then: Block, other: Block) -> None:
        """One block is next where a truth holds, and another where it doesn't."""
        outer, self.place = self.place, it.place or self.place
        truth = tree.truth_of(it)
        if truth is not None:
            self.jump(then if truth else other)
        elif isinstance(it, tree.Not):
            self.condition(it.of, other, then)
        elif isinstance(it, tree.Both):
            middle = Block()
            if it.op == "&&":
                self.condition(it.one, middle, other)
            else:
                self.condition(it.one, then, middle)
            self.begin(middle)
            self.condition(it.other, then, other)
        elif isinstance(it, tree.Comparison):
            self._compared(it, then, other)
        elif isinstance(it, tree.Pair):
            self.effect(it.one)
            self.condition(it.other, then, other)
        elif isinstance(it, tree.Converted) and isinstance(it.type, Int) and (
            it.type.truth or it.of.type.size <= it.type.size
        ):
            self.condition(it.of, then, other)
        else:
            self.branch("ne", self.value(it), 0, then, other)
        self.place = outer

    def _compared(self, it: tree.Comparison, then: Block, other: Block) -> None:
        """A comparison; of a truth with 0 it is that truth."""
        if tree.is_zero(it.other) and it.op in ("eq", "ne"):
            inner = it.one
            while isinstance(inner, tree.Converted) and inner.of.type.size <= inner.type.size:
                inner = inner.of
            if isinstance(inner, (tree.Comparison, tree.Both, tree.Not)):
                self.condition(inner, *((then, other) if it.op == "ne" else (other, then)))
                return
        one = self.value(it.one)
        self.branch(it.op, one, self.value(it.other), then, other)

    def _truth(self, it: Expr) -> Value:
        """A truth as 1 or 0."""
        to, one, zero, over = Reg(), Block(), Block(), Block()
        self.condition(it, one, zero)
        for block, value in ((one, 1), (zero, 0)):
            self.begin(block)
            self.add(Step("move", to, value))
            self.jump(over)
        self.begin(over)
        return to

    _Both = _truth

    def _Not(self, it: tree.Not) -> Value:
        if isinstance(it.of, (tree.Both, tree.Not)):
            return self._truth(it)
        if isinstance(it.of, tree.Comparison):
            return self._set(TURNED[it.of.op], it.of.one, it.of.other)
        return self.step("set", self.value(it.of), 0, condition="eq")

    def _Comparison(self, it: tree.Comparison) -> Value:
        return self._set(it.op, it.one, it.other)

    def _set(self, condition: str, one: Expr, other: Expr) -> Value:
        a = self.value(one)
        return self.step("set", a, self.value(other), condition=condition)

    def _Number(self, it: tree.Number) -> Value:
        return word(it.value)

    def _Address(self, it: tree.Address) -> Value:
        return Symbol(it.thing, it.offset)

    def _PlaceOf(self, it: tree.PlaceOf) -> Value:
        found = self.locate(it.of)
        assert isinstance(found, Memory), "a variable whose address is taken is kept"
        return self.address(found)

    def address(self, it: Memory) -> Value:
        """The address of what is in memory."""
        return self.step("add", it.base, word(it.offset)) if it.offset else it.base

    def _Content(self, it: tree.Content) -> Value:
        found = self.locate(it.of)
        if isinstance(it.of.type, (Record, Array)):
            assert isinstance(found, Memory)
            return self.address(found)
        return self.load(found, it.of.type)

    def _Unary(self, it: tree.Unary) -> Value:
        return self.step(it.op, self.value(it.of))

    def _Binary(self, it: tree.Binary) -> Value:
        one = self.value(it.one)
        return self.arithmetic(it.op, one, self.value(it.other))

    def arithmetic(self, op: str, one: Value, other: Value) -> Value:
        """A step of two values; a shift is of less than 32."""
        if op in ("shl", "shr", "sar") and not (isinstance(other, int) and other < 32):
            self.add(Step("limit", None, other, 32))
        return self.step(op, one, other)

    def narrowed(self, it: Value, to: Int) -> Value:
        """A value as a number of a type, whatever it was."""
        if to.truth:
            return self.step("set", it, 0, condition="ne")
        if to.size == 4:
            return it
        if to.signed:
            return self.step("ext8" if to.size == 1 else "ext16", it)
        return self.step("and", it, 0xFF if to.size == 1 else 0xFFFF)

    def _Converted(self, it: tree.Converted) -> Value:
        to, of = it.type, it.of.type
        assert isinstance(to, Int)
        if to.truth and isinstance(it.of, (tree.Comparison, tree.Both, tree.Not)):
            return self.value(it.of)
        found = self.value(it.of)
        wider = isinstance(of, Int) and (
            of.size < to.size and (to.signed or not of.signed or to.size == 4) or of.truth or of == to)
        return found if wider and not to.truth else self.narrowed(found, to)

    def _Assigned(self, it: tree.Assigned) -> Value:
        its = it.to.type
        if isinstance(its, Record):
            of = Memory(self.value(it.value))
            to = self.locate(it.to)
            assert isinstance(to, Memory)
            self.copy(to, of, its)
            return self.address(to)
        if isinstance(it.to, tree.At) and not is_plain(it.value):
            value = self.value(it.value)
            to = self.locate(it.to)
        else:
            to = self.locate(it.to)
            value = self.value(it.value)
        self.store(to, its, value)
        return to if isinstance(to, Reg) else value

    def _Updated(self, it: tree.Updated) -> Value:
        return self._update(it, wanted=True)

    def _update(self, it: tree.Updated, wanted: bool = False) -> Value:
        """A place gets what becomes of it."""
        other = None if is_plain(it.value) else self.value(it.value)
        to, its = self.locate(it.to), it.to.type
        was = self.load(to, its)
        if it.before and wanted and isinstance(to, Reg):
            was = self.step("move", to)
        if other is None:
            other = self.value(it.value)
        found = self.arithmetic(it.op, was, other)
        if isinstance(its, Int) and its.size < 4:
            found = self.narrowed(found, its)
        self.store(to, its, found)
        return was if it.before else to if isinstance(to, Reg) else found

    def _Choice(self, it: tree.Choice) -> Value:
        if isinstance(it.type, kinds.Void):
            self._either(it)
            return 0
        to, one, other, over = Reg(), Block(), Block(), Block()
        self.condition(it.truth, one, other)
        for block, which in ((one, it.one), (other, it.other)):
            self.begin(block)
            self.add(Step("move", to, self.value(which)))
            self.jump(over)
        self.begin(over)
        return to

    def _Pair(self, it: tree.Pair) -> Value:
        self.effect(it.one)
        return self.value(it.other)

    def _Made(self, it: tree.Made) -> Value:
        found = self.locate(it)
        assert isinstance(found, Memory)
        return found.base

    def _Service(self, it: tree.Service) -> Value:
        args = [self.value(one) for one in it.args]
        self.add(Step("service", None, args[0] if args else None, offset=it.number))
        if it.number != 1:
            self.block.end = End("stop", self.place)
            self.begin(Block())
        return 0

    def _Call(self, it: tree.Call) -> Value:
        found = Step("call")
        if isinstance(it.target, Code):
            found.target = it.target
        else:
            found.a = self.value(it.target)
        result = None
        if isinstance(it.type, Record):
            result = Spot(Slot(it.type.size, max(it.type.align, 4)))
            found.args.append(result)
        for one in it.args:
            value = self.value(one)
            if isinstance(one.type, Record):
                copied = Memory(Spot(Slot(one.type.size, max(one.type.align, 4))))
                self.copy(copied, Memory(value), one.type)
                value = copied.base
            elif isinstance(value, Reg) and not all(map(is_plain, it.args)):
                value = self.step("move", value)
            found.args.append(value)
        if result is None and not isinstance(it.type, kinds.Void):
            found.to = Reg()
        self.add(found)
        return result or found.to or 0

    def pieces(self, its: Type) -> tuple[int, int]:
        """With how many bytes at once something is moved, and how often."""
        size = min(its.align, 4) if not its.size % min(its.align, 4) else 1
        return size, its.size // size

    def copy(self, to: Memory, of: Memory, its: Type) -> None:
        """Moves the bytes of a record or an array."""
        size, count = self.pieces(its)
        if count * 4 <= INLINE:
            for at in range(0, its.size, size):
                self.add(Step("store", None, to.base, self._piece(of.at(at), size), size=size, offset=to.at(at).offset)
                         if isinstance(to.base, Reg) else
                         Step("store", None, to.at(at).base, self._piece(of.at(at), size), size=size))
            return
        self._loop(to, of, size, count)

    def _piece(self, of: Memory, size: int) -> Value:
        return self.step("load", of.base, offset=of.offset, size=size)

    def _loop(self, to: Memory, of: Optional[Memory], size: int, count: int) -> None:
        """Moves pieces, or zeros where there is nothing to move them from."""
        left, into, out = Reg("left"), Reg("into"), Reg("out")
        self.add(Step("move", left, count))
        self.add(Step("add", into, to.base, word(to.offset)))
        if of is not None:
            self.add(Step("add", out, of.base, word(of.offset)))
        again, over = Block(), Block()
        self.jump(again)
        self.begin(again)
        value: Value = 0 if of is None else self._piece(Memory(out), size)
        self.add(Step("store", None, into, value, size=size))
        self.add(Step("add", into, into, size))
        if of is not None:
            self.add(Step("add", out, out, size))
        self.add(Step("sub", left, left, 1))
        self.branch("ne", left, 0, again, over)
        self.begin(over)

    def fill(self, to: Memory, its: Type, stores: list[tuple[int, Type, Expr]]) -> None:
        """An object gets its first values, and zeros where none is told."""
        told = {byte for at, one, _ in stores for byte in range(at, at + one.size)}
        if isinstance(its, (Record, Array)) and len(told) < its.size:
            self._zero(to, its)
        for at, one, value in stores:
            if isinstance(one, Record):
                self.copy(to.at(at), Memory(self.value(value)), one)
            else:
                self.store(to.at(at), one, self.value(value))

    def _zero(self, to: Memory, its: Type) -> None:
        """Makes an object zeros."""
        size, count = self.pieces(its)
        if count * 4 > INLINE:
            self._loop(to, None, size, count)
            return
        for at in range(0, its.size, size):
            there = to.at(at)
            self.add(Step("store", None, there.base, 0, size=size, offset=there.offset))


def is_plain(it: Expr) -> bool:
    """Whether an expression does nothing but give a value."""
    if isinstance(it, (tree.Number, tree.Address)):
        return True
    if isinstance(it, (tree.Content, tree.PlaceOf)):
        return isinstance(it.of, tree.Named) or isinstance(it.of, tree.At) and is_plain(it.of.address)
    if isinstance(it, (tree.Unary, tree.Converted)):
        return is_plain(it.of)
    if isinstance(it, (tree.Binary, tree.Comparison)):
        return is_plain(it.one) and is_plain(it.other)
    return False

