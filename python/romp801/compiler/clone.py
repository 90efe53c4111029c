"""A body once more."""
from __future__ import annotations

from typing import Optional

from romp801.compiler.code import STACK, Block, Body, End, Reg, Slot, Spot, Step, Value


class Cloner:
    """Makes steps again, with registers and slots of their own."""

    def __init__(self) -> None:
        self.registers: dict[Reg, Reg] = {STACK: STACK}
        self.slots: dict[Slot, Slot] = {}
        self.blocks: dict[Block, Block] = {}

    def register(self, it: Reg) -> Reg:
        """The register for one."""
        found = self.registers.get(it)
        if found is None:
            found = self.registers[it] = Reg(it.name, it.span)
        return found

    def slot(self, it: Slot) -> Slot:
        """The slot for one."""
        found = self.slots.get(it)
        if found is None:
            found = self.slots[it] = Slot(it.size, it.align)
        return found

    def value(self, it: Optional[Value]) -> Optional[Value]:
        """The value for one."""
        if isinstance(it, Reg):
            return self.register(it)
        return Spot(self.slot(it.slot), it.offset) if isinstance(it, Spot) else it

    def step(self, it: Step) -> Step:
        """A step again."""
        found = it.copy()
        found.to = None if it.to is None else self.register(it.to)
        found.a, found.b = self.value(it.a), self.value(it.b)
        found.args = [one for one in map(self.value, it.args) if one is not None]
        if isinstance(it.near, Slot):
            found.near = self.slot(it.near)
        return found

    def end(self, it: End) -> End:
        """An end again."""
        found = End(it.op, it.place)
        found.condition, found.a, found.b = it.condition, self.value(it.a), self.value(it.b)
        found.then = None if it.then is None else self.block(it.then)
        found.other = None if it.other is None else self.block(it.other)
        return found

    def block(self, it: Block) -> Block:
        """The block for one."""
        found = self.blocks.get(it)
        if found is None:
            found = self.blocks[it] = Block()
        return found

    def all(self, body: Body) -> list[Block]:
        """All blocks again."""
        found = []
        for it in body.blocks:
            block = self.block(it)
            block.steps = [self.step(one) for one in it.steps]
            block.end = self.end(it.end)
            found.append(block)
        return found


def clone(body: Body) -> Body:
    """A body once more."""
    cloner = Cloner()
    found = Body()
    found.parameters = [cloner.register(it) for it in body.parameters]
    found.blocks = cloner.all(body)
    found.place = body.place
    return found

