"""Gives the registers of the machine to those of a body, and places in the frame where there are too few."""
from __future__ import annotations

from typing import Callable, Optional

from romp801.compiler import flow
from romp801.compiler.code import ROUTINES, Block, Body, Reg, Slot, Spot, Step, Value

LINK = 15
ARGUMENTS = (2, 3, 4, 5)
SCRATCH = (2, 3, 4, 5, 6, 7)
"""Registers that a function may leave changed; with the one that links."""
KEPT = (14, 13, 12, 11, 10, 9, 8)
"""Registers that a function leaves as they were."""
CHANGED = sum(1 << it for it in (*SCRATCH, LINK))
CHEAP = 0.01


class Graph:
    """Which registers can't be one, which would better be one, and which of the machine's each may have."""

    def __init__(self, body: Body, clobbers: Callable[[Step], int], free: int) -> None:
        self.live = flow.Live(body)
        self.body, self.clobbers = body, clobbers
        count = len(self.live.registers)
        self.beside = [0] * count
        self.allowed = [free] * count
        self.cost = [0.0] * count
        self.moves: list[tuple[float, int, int]] = []
        self.wishes: list[dict[int, float]] = [{} for _ in range(count)]
        self.alike: list[list[tuple[int, float]]] = [[] for _ in range(count)]
        self.index = {it: at for at, it in enumerate(self.live.registers)}
        self._parameters()
        for block in body.blocks:
            self._block(block)
        self._both_ways()

    def _both_ways(self) -> None:
        """What one is beside, that is beside it."""
        for at, bits in enumerate(self.beside):
            self.beside[at] = bits & ~(1 << at)
        for at, bits in enumerate(list(self.beside)):
            one = 1 << at
            while bits:
                low = bits & -bits
                self.beside[low.bit_length() - 1] |= one
                bits ^= low

    def _parameters(self) -> None:
        mask = self.live.mask(self.body.parameters)
        behind = self.live.front[self.body.blocks[0]] | mask
        for place, it in enumerate(self.body.parameters):
            at = self.index[it]
            self.beside[at] |= behind
            self.wish(it, ARGUMENTS[place], 1.0)

    def wish(self, it: Optional[Value], register: int, weight: float) -> None:
        """A register would better be this of the machine's."""
        if isinstance(it, Reg) and it in self.index:
            wishes = self.wishes[self.index[it]]
            wishes[register] = wishes.get(register, 0.0) + weight

    def _likes(self, it: Step, weight: float) -> None:
        """Which registers a step would better have as one."""
        assert it.to is not None
        to = self.index[it.to]
        for of in (it.a, it.b):
            if isinstance(of, Reg) and of in self.index and self.index[of] != to:
                self.alike[to].append((self.index[of], weight))
                self.alike[self.index[of]].append((to, weight))
            if it.op not in ("and", "or", "xor"):
                break

    def _block(self, block: Block) -> None:
        weight = 10.0**block.depth
        live = self.live
        bits = live.behind[block] | live.mask(block.end.uses())
        for one in block.end.uses():
            self.cost[self.index[one]] += weight
        if block.end.op == "return":
            self.wish(block.end.a, 2, weight)
        for it in reversed(block.steps):
            gives = 0
            if it.to is not None:
                at = self.index[it.to]
                gives = 1 << at
                self.cost[at] += weight
                beside = bits
                if it.op == "move" and isinstance(it.a, Reg) and it.a in self.index:
                    beside &= ~(1 << self.index[it.a])
                    self.moves.append((weight, at, self.index[it.a]))
                self.beside[at] |= beside
                if it.op in ("sub", "shl", "shr", "sar", "ext8", "and", "or", "xor", "move", "add"):
                    self._likes(it, weight)
                if it.op in ("shl", "shr", "sar") and isinstance(it.b, Reg) and it.b is not it.a:
                    self.beside[at] |= 1 << self.index[it.b]
            self._fixed(it, bits & ~gives, weight)
            bits = bits & ~gives | live.mask(it.uses())
            for one in it.uses():
                self.cost[self.index[one]] += weight

    def _fixed(self, it: Step, across: int, weight: float) -> None:
        """What a step asks of the machine's registers."""
        changed = self.clobbers(it)
        if changed:
            for one in self.live.of(across):
                self.allowed[self.index[one]] &= ~changed
        if it.op == "call":
            for place, given in enumerate(it.args[: len(ARGUMENTS)]):
                self.wish(given, ARGUMENTS[place], weight)
            if isinstance(it.a, Reg):
                taken = sum(1 << ARGUMENTS[at] for at in range(min(len(it.args), len(ARGUMENTS))))
                self.allowed[self.index[it.a]] &= ~(taken | 1 << LINK)
        elif it.op in ROUTINES:
            self.wish(it.a, 2, weight)
            self.wish(it.b, 3, weight)
        elif it.op == "service":
            self.wish(it.a, 2, weight)
        if it.op == "call" or it.op in ROUTINES:
            self.wish(it.to, 2, weight)


class Coloring:
    """Colors a graph; `spilled` are those that have none."""

    def __init__(self, graph: Graph, order: list[int], fixed: dict[Reg, Value], unspillable: set[Reg]) -> None:
        self.graph, self.order = graph, order
        self.count = len(graph.live.registers)
        self.into = list(range(self.count))
        self.fixed, self.unspillable = fixed, unspillable
        self.color: dict[int, int] = {}
        self.spilled: list[Reg] = []
        self._join()
        self._select(self._simplify())

    def find(self, at: int) -> int:
        """Which node a register became a part of."""
        while self.into[at] != at:
            at = self.into[at]
        return at

    def register(self, it: Reg) -> int:
        """The machine's register of one."""
        return self.color[self.find(self.graph.index[it])]

    def _join(self) -> None:
        """Makes one of registers that are moved into each other, where that can't cost a place in the frame."""
        graph = self.graph
        for weight, one, other in sorted(graph.moves, key=lambda it: -it[0]):
            one, other = self.find(one), self.find(other)
            if one == other or graph.beside[one] >> other & 1:
                continue
            if graph.live.registers[one] in self.fixed or graph.live.registers[other] in self.fixed:
                continue
            allowed = graph.allowed[one] & graph.allowed[other]
            if not allowed:
                continue
            beside = graph.beside[one] | graph.beside[other]
            if self._heavy(beside) >= bin(allowed).count("1"):
                continue
            self._merge(one, other, allowed)

    def _heavy(self, bits: int) -> int:
        """How many of these have as many neighbors as they may have registers."""
        found = 0
        graph = self.graph
        while bits:
            low = bits & -bits
            at = low.bit_length() - 1
            found += bin(graph.beside[at]).count("1") >= bin(graph.allowed[at]).count("1")
            bits ^= low
        return found

    def _merge(self, one: int, other: int, allowed: int) -> None:
        graph = self.graph
        self.into[other] = one
        bits = graph.beside[other]
        graph.beside[one] |= bits
        while bits:
            low = bits & -bits
            at = low.bit_length() - 1
            graph.beside[at] = graph.beside[at] & ~(1 << other) | 1 << one
            bits ^= low
        graph.beside[other] = 0
        graph.allowed[one] = allowed
        graph.cost[one] += graph.cost[other]
        for register, weight in graph.wishes[other].items():
            graph.wishes[one][register] = graph.wishes[one].get(register, 0.0) + weight
        graph.alike[one] += graph.alike[other]
        if graph.live.registers[other] in self.unspillable:
            self.unspillable.add(graph.live.registers[one])

    def _simplify(self) -> list[int]:
        """The order in which registers are given, the last first."""
        graph = self.graph
        left = {at for at in range(self.count) if self.into[at] == at}
        degree = {at: bin(graph.beside[at]).count("1") for at in left}
        room = {at: bin(graph.allowed[at]).count("1") for at in left}
        ready = sorted(at for at in left if degree[at] < room[at])
        stack: list[int] = []
        while left:
            if ready:
                at = ready.pop()
                if at not in left:
                    continue
            else:
                at = min(sorted(left), key=lambda it: self._price(it) / (degree[it] + 1))
            left.discard(at)
            stack.append(at)
            bits = graph.beside[at]
            while bits:
                low = bits & -bits
                other = low.bit_length() - 1
                bits ^= low
                if other in left:
                    degree[other] -= 1
                    if degree[other] == room[other] - 1:
                        ready.append(other)
        return stack[::-1]

    def _price(self, at: int) -> float:
        """What a register in the frame would cost."""
        it = self.graph.live.registers[at]
        if it in self.unspillable:
            return 1e30
        return self.graph.cost[at] * (CHEAP if it in self.fixed else 1.0)

    def _select(self, order: list[int]) -> None:
        graph = self.graph
        for at in order:
            free = graph.allowed[at]
            bits = graph.beside[at]
            while bits:
                low = bits & -bits
                other = low.bit_length() - 1
                bits ^= low
                if other in self.color:
                    free &= ~(1 << self.color[other])
            if not free:
                self.spilled.append(graph.live.registers[at])
                continue
            self.color[at] = self._best(at, free)

    def _best(self, at: int, free: int) -> int:
        """The register of the machine that is best of those that are free."""
        likes = dict(self.graph.wishes[at])
        for other, weight in self.graph.alike[at]:
            other = self.find(other)
            color = self.color.get(other)
            if color is not None:
                likes[color] = likes.get(color, 0.0) + weight
            else:
                for register, more in self.graph.wishes[other].items():
                    likes[register] = likes.get(register, 0.0) + more / 2
        used = set(self.color.values())
        return max(
            (it for it in self.order if free >> it & 1),
            key=lambda it: (likes.get(it, 0.0), it not in KEPT or it in used, -self.order.index(it)),
        )


def spill(body: Body, spilled: list[Reg], fixed: dict[Reg, Value], unspillable: set[Reg]) -> None:
    """Gives registers places in the frame, and those that have constants these at each use."""
    slots = {it: Slot(4) for it in spilled if it not in fixed}
    gone = set(spilled)
    for block in body.blocks:
        out: list[Step] = []
        for it in block.steps:
            if it.to in gone and it.to in fixed:
                continue
            again = _fetch(it.uses(), gone, slots, fixed, unspillable, out)
            if again:
                it.a = again.get(it.a, it.a)  # type: ignore[arg-type]
                it.b = again.get(it.b, it.b)  # type: ignore[arg-type]
                it.args = [again.get(one, one) for one in it.args]  # type: ignore[arg-type]
            out.append(it)
            if it.to in slots:
                slot = slots[it.to]
                it.to = Reg("s")
                unspillable.add(it.to)
                out.append(Step("store", None, Spot(slot), it.to, place=it.place))
        again = _fetch(block.end.uses(), gone, slots, fixed, unspillable, out)
        block.end.a = again.get(block.end.a, block.end.a)  # type: ignore[arg-type]
        block.end.b = again.get(block.end.b, block.end.b)  # type: ignore[arg-type]
        block.steps = out
    first: list[Step] = []
    for place, one in enumerate(body.parameters):
        if one in slots:
            body.parameters[place] = arrived = Reg("p")
            unspillable.add(arrived)
            first.append(Step("store", None, Spot(slots[one]), arrived))
    body.blocks[0].steps[:0] = first


def _fetch(
    uses: list[Reg],
    gone: set[Reg],
    slots: dict[Reg, Slot],
    fixed: dict[Reg, Value],
    unspillable: set[Reg],
    out: list[Step],
) -> dict[Reg, Reg]:
    """Registers for those that are in the frame, in front of what takes them."""
    found: dict[Reg, Reg] = {}
    for it in uses:
        if it in gone and it not in found:
            found[it] = Reg("s")
            unspillable.add(found[it])
            out.append(Step("load", found[it], Spot(slots[it])) if it in slots else Step("move", found[it], fixed[it]))
    return found


def allocate(
    body: Body, fixed: dict[Reg, Value], clobbers: Callable[[Step], int], links: bool, entry: bool
) -> Coloring:
    """Colors a body. `links` says whether the register that links may be given, and `entry` that nothing is kept."""
    order = [*SCRATCH, *KEPT]
    if links:
        order.insert(len(SCRATCH), LINK)
    unspillable: set[Reg] = set()
    free = sum(1 << it for it in order)
    while True:
        graph = Graph(body, clobbers, free)
        found = Coloring(graph, order, fixed, unspillable)
        if not found.spilled:
            return found
        members: dict[int, list[Reg]] = {}
        for it in graph.live.registers:
            members.setdefault(found.find(graph.index[it]), []).append(it)
        spill(body, [one for it in found.spilled for one in members[graph.index[it]]], fixed, unspillable)

