"""How a body's blocks follow one another, and what is live in them."""
from __future__ import annotations

from typing import Iterator

from romp801.compiler.code import Block, Body, End, Reg


def tidy(body: Body) -> None:
    """Leaves out blocks that aren't reached, passes by those that only go on, and joins those that follow one another
    alone."""
    changed = True
    while changed:
        _pass_by(body)
        reached = _reached(body)
        body.blocks = [it for it in body.blocks if it in reached]
        changed = _join(body)


def _target(block: Block) -> Block:
    """Where a block leads that only goes on."""
    seen = set()
    while not block.steps and block.end.op == "jump" and block not in seen:
        seen.add(block)
        assert block.end.then is not None
        block = block.end.then
    return block


def _pass_by(body: Body) -> None:
    for block in body.blocks:
        end = block.end
        if end.then is not None:
            end.then = _target(end.then)
        if end.other is not None:
            end.other = _target(end.other)
        if end.op == "branch" and end.then is end.other:
            end.op, end.other, end.a, end.b = "jump", None, None, None
        if end.op == "jump" and end.then is not None and not end.then.steps and end.then.end.op == "return":
            if end.then is not block:
                found = End("return", end.then.end.place)
                found.a = end.then.end.a
                block.end = found


def _reached(body: Body) -> set[Block]:
    found: set[Block] = set()
    waiting = [body.blocks[0]]
    while waiting:
        it = waiting.pop()
        if it not in found:
            found.add(it)
            waiting += it.end.after()
    return found


def _join(body: Body) -> bool:
    """Joins a block to the only one before it, where that goes nowhere else."""
    before = predecessors(body)
    changed = False
    gone: set[Block] = set()
    for block in body.blocks:
        if block in gone:
            continue
        while block.end.op == "jump":
            after = block.end.then
            assert after is not None
            if after is block or after is body.blocks[0] or len(before[after]) != 1:
                break
            block.steps += after.steps
            block.end = after.end
            gone.add(after)
            changed = True
    body.blocks = [it for it in body.blocks if it not in gone]
    return changed


def predecessors(body: Body) -> dict[Block, list[Block]]:
    """The blocks before each."""
    found: dict[Block, list[Block]] = {it: [] for it in body.blocks}
    for block in body.blocks:
        for after in block.end.after():
            found[after].append(block)
    return found


def ordered(body: Body) -> list[Block]:
    """The blocks, each behind those that lead to it, but for loops."""
    found: list[Block] = []
    seen: set[Block] = set()
    waiting: list[tuple[Block, Iterator[Block]]] = []

    def enter(block: Block) -> None:
        seen.add(block)
        waiting.append((block, iter(block.end.after())))

    enter(body.blocks[0])
    while waiting:
        block, rest = waiting[-1]
        after = next((it for it in rest if it not in seen), None)
        if after is None:
            found.append(block)
            waiting.pop()
        else:
            enter(after)
    return found[::-1]


def dominators(body: Body, before: dict[Block, list[Block]]) -> dict[Block, Block]:
    """Of each block the nearest that is always passed before it; the first is its own."""
    order = ordered(body)
    place = {it: at for at, it in enumerate(order)}
    first = order[0]
    found: dict[Block, Block] = {first: first}

    def meet(one: Block, other: Block) -> Block:
        while one is not other:
            while place[one] > place[other]:
                one = found[one]
            while place[other] > place[one]:
                other = found[other]
        return one

    changed = True
    while changed:
        changed = False
        for block in order[1:]:
            known = [it for it in before[block] if it in found]
            its = known[0]
            for it in known[1:]:
                its = meet(its, it)
            if found.get(block) is not its:
                found[block] = its
                changed = True
    return found


def depths(body: Body) -> dict[Block, Block]:
    """Tells each block in how many loops it is; returns the dominators."""
    before = predecessors(body)
    above = dominators(body, before)
    for block in body.blocks:
        block.depth = 0
    loops: dict[Block, set[Block]] = {}
    for block in body.blocks:
        for head in block.end.after():
            if _is_above(head, block, above):
                loops.setdefault(head, {head}).update(_of_loop(head, block, before))
    for members in loops.values():
        for it in members:
            it.depth += 1
    return above


def _is_above(one: Block, other: Block, above: dict[Block, Block]) -> bool:
    while other is not one and above[other] is not other:
        other = above[other]
    return other is one


def _of_loop(head: Block, last: Block, before: dict[Block, list[Block]]) -> set[Block]:
    found = {head}
    waiting = [last]
    while waiting:
        it = waiting.pop()
        if it not in found:
            found.add(it)
            waiting += before[it]
    return found


class Live:
    """Which registers are live behind each block, as bits: `bits` has that of each register."""

    def __init__(self, body: Body) -> None:
        self.registers: list[Reg] = []
        self.bits: dict[Reg, int] = {}
        uses: dict[Block, int] = {}
        gives: dict[Block, int] = {}
        for it in body.parameters:
            self.bit(it)
        for block in body.blocks:
            uses[block], gives[block] = self._of(block)
        self.front = dict(uses)
        self.behind = {it: 0 for it in body.blocks}
        order = ordered(body)[::-1]
        changed = True
        while changed:
            changed = False
            for block in order:
                behind = 0
                for after in block.end.after():
                    behind |= self.front[after]
                front = uses[block] | behind & ~gives[block]
                if front != self.front[block] or behind != self.behind[block]:
                    self.front[block], self.behind[block], changed = front, behind, True

    def bit(self, it: Reg) -> int:
        """The bit of a register."""
        found = self.bits.get(it)
        if found is None:
            found = self.bits[it] = 1 << len(self.registers)
            self.registers.append(it)
        return found

    def mask(self, registers: list[Reg]) -> int:
        """The bits of registers."""
        found = 0
        for it in registers:
            found |= self.bit(it)
        return found

    def of(self, bits: int) -> Iterator[Reg]:
        """The registers of bits."""
        while bits:
            low = bits & -bits
            yield self.registers[low.bit_length() - 1]
            bits ^= low

    def _of(self, block: Block) -> tuple[int, int]:
        """What a block takes from before it, and what it gives."""
        uses = gives = 0
        for it in block.steps:
            uses |= self.mask(it.uses()) & ~gives
            if it.to is not None:
                gives |= self.bit(it.to)
        return uses | self.mask(block.end.uses()) & ~gives, gives
