"""Gives each step the operands that instructions have: what isn't an immediate number becomes a register's."""
from __future__ import annotations

from romp801.compiler import flow
from romp801.compiler.code import Block, Body, Reg, Slot, Spot, Step, Symbol, Value, signed, word

IN_REGISTERS = 4
"""Parameters that come in registers."""


class Incoming(Slot):
    """Where the caller has put a parameter."""

    def __init__(self, index: int) -> None:
        super().__init__(4)
        self.index = index

    __slots__ = ("index",)


class Outgoing(Slot):
    """Where a parameter of a call is put."""

    def __init__(self, index: int) -> None:
        super().__init__(4)
        self.index = index

    __slots__ = ("index",)


class Settler:
    """Settles a body."""

    def __init__(self, body: Body) -> None:
        self.body = body
        self.constants: dict[Value, Reg] = {}
        self.uses: dict[Value, list[Block]] = {}
        self.block = body.blocks[0]
        self.out: list[Step] = []

    def run(self) -> dict[Reg, Value]:
        """Settles it; returns the registers that have constants, with these."""
        self._parameters()
        for block in self.body.blocks:
            self.block, self.out = block, []
            for it in block.steps:
                self._step(it)
            end = block.end
            if end.op == "branch":
                assert end.a is not None and end.b is not None
                if not isinstance(end.a, Reg):
                    end.a = self.register(end.a)
                end.b = self._compared(end.b)
            block.steps = self.out
        self._place()
        return {register: value for value, register in self.constants.items()}

    def _parameters(self) -> None:
        """Those beyond the fourth are loaded from where the caller has put them."""
        loads = []
        for index, it in enumerate(self.body.parameters[IN_REGISTERS:]):
            loads.append(Step("load", it, Spot(Incoming(index))))
        del self.body.parameters[IN_REGISTERS:]
        self.body.blocks[0].steps[:0] = loads

    def register(self, value: Value) -> Reg:
        """A register that has a constant."""
        found = self.constants.get(value)
        if found is None:
            found = self.constants[value] = Reg("c")
        blocks = self.uses.setdefault(value, [])
        if not blocks or blocks[-1] is not self.block:
            blocks.append(self.block)
        return found

    def _compared(self, value: Value) -> Value:
        """The second value of a comparison: a register, or a number that an instruction has room for."""
        if isinstance(value, Reg) or isinstance(value, int) and fits(value):
            return value
        return self.register(value)

    def _step(self, it: Step) -> None:
        op = it.op
        if op in ("load", "store"):
            self._access(it)
            if op == "store" and not isinstance(it.b, Reg) and it.b != 0:
                assert it.b is not None
                it.b = self.register(it.b)
        elif op == "call":
            if it.a is not None and not isinstance(it.a, Reg):
                it.a = self.register(it.a)
            for index, one in enumerate(it.args[IN_REGISTERS:]):
                self._step(Step("store", None, Spot(Outgoing(index)), one, place=it.place))
            del it.args[IN_REGISTERS:]
        elif op == "limit":
            assert it.a is not None
            it.b = None if isinstance(it.a, int) else self.register(32)
        elif op not in ("move", "service", "mul", "divu", "divs", "remu", "rems"):
            self._operands(it)
        self.out.append(it)

    def _operands(self, it: Step) -> None:
        """The operands of arithmetic."""
        assert it.a is not None
        op = it.op
        small = op == "sub" and isinstance(it.a, int) and fits(it.a) and isinstance(it.b, Reg)
        if not isinstance(it.a, Reg) and not small:
            it.a = self.register(it.a)
        if op == "set":
            assert it.b is not None
            it.b = self._compared(it.b)
        elif op == "add" and isinstance(it.b, int) and not fits(it.b) and it.b & 0xFFFF:
            it.b = self.register(it.b)
        elif op in ("sub", "and", "or", "xor", "shl", "shr", "sar") and isinstance(it.b, (Symbol, Spot)):
            it.b = self.register(it.b)

    def _access(self, it: Step) -> None:
        """The address of a load or a store."""
        if isinstance(it.a, int):
            address = word(it.a + it.offset)
            low = (address + 0x8000 & 0xFFFF) - 0x8000
            high = word(address - low)
            it.a, it.offset = self.register(high) if high else 0, low
        elif isinstance(it.a, (Symbol, Spot)):
            at = it.a.offset + it.offset
            if not -0x4000 <= at < 0x4000:
                it.a, it.offset = self.register(it.a), it.offset
        if not -0x4000 <= it.offset < 0x4000 and not (it.near is None and fits(word(it.offset))):
            assert it.a is not None
            far = Reg()
            self.out.append(Step("add", far, it.a, self._far(it.offset), place=it.place))
            it.a, it.offset = far, 0

    def _far(self, offset: int) -> Value:
        return word(offset) if fits(word(offset)) else self.register(word(offset))

    def _place(self) -> None:
        """Puts each constant where all that take it come by, and outside of loops."""
        above = flow.depths(self.body)
        for value, blocks in self.uses.items():
            there = blocks[0]
            for it in blocks[1:]:
                there = _common(there, it, above)
            while there.depth and above[there] is not there:
                there = above[there]
            step = Step("move", self.constants[value], value)
            at = next((at for at, it in enumerate(there.steps) if step.to in it.uses()), len(there.steps))
            step.place = there.steps[at].place if at < len(there.steps) else there.end.place
            there.steps.insert(at, step)


def _common(one: Block, other: Block, above: dict[Block, Block]) -> Block:
    """The nearest block that is passed before two."""
    line = {one}
    while above[one] is not one:
        one = above[one]
        line.add(one)
    while other not in line:
        other = above[other]
    return other


def fits(value: int) -> bool:
    """Whether a number is one of sixteen bits with a sign."""
    return -0x8000 <= signed(value) < 0x8000
