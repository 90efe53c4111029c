"""Rows of the assembler for a body that has its registers."""
from __future__ import annotations

from typing import Callable, Optional, Union

from romp801.compiler import flow
from romp801.compiler.code import (
    ROUTINES,
    STACK,
    Block,
    Body,
    End,
    Reg,
    Slot,
    Spot,
    Step,
    Symbol,
    Thing,
    Value,
    signed,
)
from romp801.compiler.faults import Place
from romp801.compiler.registers import ARGUMENTS, KEPT, LINK, Coloring
from romp801.compiler.settle import Incoming, Outgoing, fits
from romp801.job import SHORT

TOP = 16384
"""Where the private storage ends, and the first frame."""
RESULT = frozenset(
    "abs clrbl clrbu exts n nilo nilz niuo niuz o oil oiu onec sar sari sari16 setbl setbu sl sli sli16 sr "
    "sri sri16 x xil xiu".split()
)
SUM = frozenset("a ae aei ai ais s se sf sfi sis twoc".split())
COMPARE = frozenset("c ci cis cl cli".split())
STORES = frozenset("st sth stc sts sths stcs stm".split())
FLAG = {
    "eq": ("eq", True),
    "ne": ("eq", False),
    "lt": ("lt", True),
    "ge": ("lt", False),
    "gt": ("gt", True),
    "le": ("gt", False),
}
SETS_FLAGS = {"inc": "ais", "dec": "sis", "cal": "ai"}
"""Rows that do the same as others, and set flags too."""
BOUND = frozenset("jb jnb bb bnb bbx bnbx bnbr bnbrx balr balrx bali balix svc tgte ti".split())
"""Rows that are no subject of a branch."""


class Row:
    """A row: its operands are numbers of registers and texts. `to` is the register that it gives, and `takes` those
    that it takes."""

    __slots__ = ("op", "operands", "place", "to", "takes", "target", "size", "also")

    def __init__(
        self,
        op: str,
        operands: list[str],
        place: Optional[Place],
        to: int = -1,
        takes: int = 0,
        target: Optional[Block] = None,
    ) -> None:
        self.op, self.operands, self.place, self.to, self.takes, self.target = op, operands, place, to, takes, target
        self.size = 2 if op in SHORT else 4
        self.also: set[int] = set()

    @property
    def sets_flags(self) -> bool:
        """Whether it changes flags that are looked at."""
        return self.op in RESULT or self.op in SUM or self.op in COMPARE


Line = Union[Row, Block]


class Emitter:
    """Emits a body's rows. `name` tells how a thing is written."""

    def __init__(
        self,
        body: Body,
        colors: Coloring,
        name: Callable[[Thing], str],
        routine: Callable[[str], str],
        entry: bool,
        leaf: bool,
    ) -> None:
        self.body, self.colors, self.name, self.routine = body, colors, name, routine
        self.entry, self.leaf = entry, leaf
        self.lines: list[Line] = []
        self.place: Optional[Place] = None
        self.flags: Optional[tuple[object, ...]] = None
        self.behind: dict[Block, Optional[tuple[object, ...]]] = {}
        self.frame = 0
        self.saved = 16

    def run(self, limit: str = "", top: bool = False) -> list[Line]:
        """All rows. With `limit` the frame may not begin below that; with `top` this is where the first one ends."""
        self._lay()
        self.place = self.body.place
        self._enter(limit, top)
        before = flow.predecessors(self.body)
        depth = {it: it.depth for it in self.body.blocks}
        for at, block in enumerate(self.body.blocks):
            self.lines.append(block)
            only = before[block][0] if len(before[block]) == 1 and at else None
            self.flags = self.behind.get(only) if only is not None else None
            for it in block.steps:
                self.place = it.place or self.place
                self._step(it)
            after = self.body.blocks[at + 1] if at + 1 < len(self.body.blocks) else None
            self.place = block.end.place or self.place
            self._end(block.end, after)
            self.behind[block] = self.flags
        fill(self.lines, depth)
        return self.lines

    def _lay(self) -> None:
        """Lays the frame: parameters of calls, slots, and registers that are kept."""
        slots: dict[Slot, None] = {}
        out = 0
        for it in self.body.steps():
            for value in it.values():
                if isinstance(value, Spot):
                    slots[value.slot] = None
            if isinstance(it.near, Slot):
                slots[it.near] = None
        for slot in slots:
            if isinstance(slot, Outgoing):
                slot.at = 4 * slot.index
                out = max(out, slot.at + 4)
        at = out
        for slot in slots:
            if not isinstance(slot, (Outgoing, Incoming)):
                slot.at, at = at, at + -(-slot.size // 4) * 4
        used = {it for it in self.colors.color.values() if it in KEPT}
        if not self.entry and (used or not self.leaf):
            self.saved = min(used, default=LINK)
            at += 4 * (16 - self.saved)
        self.frame = at
        for slot in slots:
            if isinstance(slot, Incoming):
                slot.at = at + 4 * slot.index

    def _enter(self, limit: str, top: bool) -> None:
        """The frame, and the parameters in their registers."""
        if top:
            self.row("cal", "r1", "r0", str(TOP - self.frame))
        elif self.frame and not self.entry:
            self._adjust(-self.frame)
            if limit:
                self.row("ti", "4", "r1", limit)
            if self.saved < 16:
                op = "stm" if self.saved < LINK else "st"
                self.row(op, f"r{self.saved}", f"{self.frame - 4 * (16 - self.saved)}(r1)")
        front = self.colors.graph.live.front[self.body.blocks[0]]
        moves: list[tuple[int, Value]] = []
        for place, it in enumerate(self.body.parameters):
            if front & self.colors.graph.live.bits[it]:
                moves.append((self.colors.register(it), ARGUMENTS[place]))
        self._parallel([(to, of) for to, of in moves if isinstance(of, int)], [])

    def _adjust(self, by: int) -> None:
        if 0 < by < 16:
            self.row("inc", "r1", str(by))
        elif -16 < by < 0:
            self.row("dec", "r1", str(-by))
        else:
            self.row("cal", "r1", "r1", str(by))

    def row(
        self, op: str, *operands: str, to: int = -1, takes: tuple[int, ...] = (), target: Optional[Block] = None
    ) -> Row:
        """The next row."""
        mask = 0
        for it in takes:
            mask |= 1 << it
        found = Row(op, list(operands), self.place, to, mask, target)
        self.lines.append(found)
        if found.sets_flags or op in ("bali", "balr"):
            self.flags = None
        elif self.flags is not None and to in self.flags[1:3]:
            self.flags = None
        return found

    def at(self, value: Optional[Value]) -> int:
        """The machine's register of a register."""
        if value is STACK:
            return 1
        assert isinstance(value, Reg)
        return self.colors.register(value)

    def move(self, to: int, of: int) -> None:
        """A register into another."""
        if to != of:
            self.row("cas", f"r{to}", f"r{of}", "r0", to=to, takes=(of,))

    def load_value(self, to: int, value: Value) -> None:
        """A register or a constant into a register."""
        if isinstance(value, Reg):
            self.move(to, self.at(value))
        elif isinstance(value, Symbol):
            self.row("cal", f"r{to}", "r0", plus(self.name(value.thing), value.offset), to=to)
        elif isinstance(value, Spot):
            self.row("cal", f"r{to}", "r1", str(value.slot.at + value.offset), to=to)
        else:
            self._number(to, value)

    def _number(self, to: int, value: int) -> None:
        number = signed(value)
        if 0 <= number <= 15:
            self.row("lis", f"r{to}", str(number), to=to)
        elif fits(value):
            self.row("cal", f"r{to}", "r0", str(number), to=to)
        elif value <= 0xFFFF:
            self.row("oil", f"r{to}", "r0", str(value), to=to)
        else:
            self.row("cau", f"r{to}", "r0", hexadecimal(value >> 16), to=to)
            if value & 0xFFFF:
                self.row("oil", f"r{to}", f"r{to}", hexadecimal(value & 0xFFFF), to=to, takes=(to,))

    def _parallel(self, moves: list[tuple[int, int]], constants: list[tuple[int, Value]]) -> None:
        """Registers into others at once, and then constants."""
        waiting = [(to, of) for to, of in moves if to != of]
        while waiting:
            sources = {of for _, of in waiting}
            ready = next((it for it in waiting if it[0] not in sources), None)
            if ready is not None:
                self.move(*ready)
                waiting.remove(ready)
                continue
            to, of = waiting.pop(0)
            for one, other in ((to, of), (of, to), (to, of)):
                self.row("x", f"r{one}", f"r{other}", to=one, takes=(one, other))
            waiting = [(it, to if its == of else of if its == to else its) for it, its in waiting]
            waiting = [(it, its) for it, its in waiting if it != its]
        for to, value in constants:
            self.load_value(to, value)

    def give(self, places: tuple[int, ...], values: list[Value]) -> None:
        """Values into these registers at once."""
        moves = [(to, self.at(it)) for to, it in zip(places, values) if isinstance(it, Reg)]
        self._parallel(moves, [(to, it) for to, it in zip(places, values) if not isinstance(it, Reg)])

    def _step(self, it: Step) -> None:
        op = it.op
        if op == "move":
            assert it.a is not None
            self.load_value(self.at(it.to), it.a)
        elif op in ("load", "store"):
            self._access(it)
        elif op == "call":
            self._call(it)
        elif op in ROUTINES:
            assert it.a is not None and it.b is not None
            self.give((2, 3), [it.a, it.b])
            self.row("bali", "r15", self.routine(op))
            self.move(self.at(it.to), 2)
        elif op == "service":
            if it.a is not None:
                self.give((2,), [it.a])
            self.row("svc", str(it.offset), takes=(2,) if it.offset == 1 else ())
        elif op == "limit":
            one, other = (self.at(it.a), self.at(it.b)) if isinstance(it.a, Reg) else (0, 0)
            self.row("tgte", f"r{one}", f"r{other}", takes=(one, other))
        elif op == "set":
            self._set(it)
        else:
            getattr(self, f"_{op}")(it, self.at(it.to))

    def _call(self, it: Step) -> None:
        self.give(ARGUMENTS, it.args)
        if it.target is not None:
            self.row("bali", "r15", self.name(it.target))
        else:
            self.row("balr", "r15", f"r{self.at(it.a)}", takes=(self.at(it.a),))
        if it.to is not None:
            self.move(self.at(it.to), 2)

    def _access(self, it: Step) -> None:
        """A load or a store."""
        base, at = self._base(it)
        text = f"{at}(r{base})"
        near = isinstance(it.near, Thing) or isinstance(it.a, Symbol)
        far = -1 if near else int(at)
        short = not near and base and far >= 0 and far % it.size == 0 and far // it.size < 16
        if it.op == "store":
            of = self.at(it.b) if isinstance(it.b, Reg) else 0
            op = {1: "stc", 2: "sth", 4: "st"}[it.size]
            self.row(op + "s" if short else op, f"r{of}", text, takes=(of, base))
            return
        to = self.at(it.to)
        if it.size == 4:
            self.row("ls" if short else "l", f"r{to}", text, to=to, takes=(base,))
        elif it.size == 2 and it.signed:
            self.row("lhas" if short else "lha", f"r{to}", text, to=to, takes=(base,))
        elif it.size == 2:
            if short and far == 0:
                self.row("lhs", f"r{to}", f"r{base}", to=to, takes=(base,))
            else:
                self.row("lh", f"r{to}", text, to=to, takes=(base,))
        else:
            self.row("lcs" if short else "lc", f"r{to}", text, to=to, takes=(base,))
            if it.signed:
                self._extend(to)

    def _base(self, it: Step) -> tuple[int, str]:
        """The register of an address, and what is added to it."""
        if isinstance(it.a, Symbol):
            return 0, plus(self.name(it.a.thing), it.a.offset + it.offset)
        if isinstance(it.a, Spot):
            return 1, str(it.a.slot.at + it.a.offset + it.offset)
        base = 0 if isinstance(it.a, int) else self.at(it.a)
        if isinstance(it.near, Thing):
            return base, plus(self.name(it.near), it.offset)
        return base, str((it.near.at if isinstance(it.near, Slot) else 0) + it.offset)

    def _extend(self, to: int) -> None:
        for op in ("sli16", "sari16"):
            self.row(op, f"r{to}", "8", to=to, takes=(to,))

    def _two(self, op: str, to: int, other: int) -> None:
        self.row(op, f"r{to}", f"r{other}", to=to, takes=(to, other))

    def _three(self, op: str, to: int, of: int, number: str) -> None:
        self.row(op, f"r{to}", f"r{of}", number, to=to, takes=(of,))

    def _add(self, it: Step, to: int) -> None:
        a, b = self.at(it.a), it.b
        if isinstance(b, Reg):
            self.row("cas", f"r{to}", f"r{a}", f"r{self.at(b)}", to=to, takes=(a, self.at(b)))
        elif isinstance(b, Symbol):
            self._three("cal", to, a, plus(self.name(b.thing), b.offset))
        elif isinstance(b, Spot):
            self._three("cal", to, a, str(b.slot.at + b.offset))
            self.row("cas", f"r{to}", f"r{to}", "r1", to=to, takes=(to, 1))
        else:
            assert b is not None
            number = signed(b)
            if to == a and -16 < number < 16:
                self.row("inc" if number > 0 else "dec", f"r{to}", str(abs(number)), to=to, takes=(to,))
            elif fits(b):
                self._three("cal", to, a, str(number))
            else:
                self._three("cau", to, a, hexadecimal(b >> 16))

    def _sub(self, it: Step, to: int) -> None:
        b = self.at(it.b)
        if isinstance(it.a, int):
            self._three("sfi", to, b, str(signed(it.a)))
            return
        a = self.at(it.a)
        if to == b and to != a:
            self._two("sf", to, a)
        else:
            self.move(to, a)
            self._two("s", to, b)

    def _logic(self, it: Step, to: int, op: str, low: str, high: str) -> None:
        """or and exclusive or, and of two registers also and."""
        a = self.at(it.a)
        if isinstance(it.b, Reg):
            b = self.at(it.b)
            if to == b:
                a, b = b, a
            self.move(to, a)
            self._two(op, to, b)
            return
        assert isinstance(it.b, int)
        if it.b & 0xFFFF:
            self._three(low, to, a, hexadecimal(it.b & 0xFFFF))
            a = to
        if it.b >> 16:
            self._three(high, to, a, hexadecimal(it.b >> 16))

    def _and(self, it: Step, to: int) -> None:
        if isinstance(it.b, Reg):
            self._logic(it, to, "n", "", "")
            return
        assert isinstance(it.b, int)
        a, high, low = self.at(it.a), it.b >> 16, it.b & 0xFFFF
        if high == 0:
            self._three("nilz", to, a, hexadecimal(low))
        elif high == 0xFFFF:
            self._three("nilo", to, a, hexadecimal(low))
        elif low == 0:
            self._three("niuz", to, a, hexadecimal(high))
        else:
            self._three("niuo", to, a, hexadecimal(high))
            if low != 0xFFFF:
                self._three("nilo", to, to, hexadecimal(low))

    def _or(self, it: Step, to: int) -> None:
        self._logic(it, to, "o", "oil", "oiu")

    def _xor(self, it: Step, to: int) -> None:
        if it.b == 0xFFFFFFFF:
            self._not(it, to)
        else:
            self._logic(it, to, "x", "xil", "xiu")

    def _shift(self, it: Step, to: int, op: str, number: str) -> None:
        self.move(to, self.at(it.a))
        if isinstance(it.b, Reg):
            self._two(op, to, self.at(it.b))
        else:
            assert isinstance(it.b, int)
            self.row(number + ("16" if it.b > 15 else ""), f"r{to}", str(it.b & 15), to=to, takes=(to,))

    def _shl(self, it: Step, to: int) -> None:
        self._shift(it, to, "sl", "sli")

    def _shr(self, it: Step, to: int) -> None:
        self._shift(it, to, "sr", "sri")

    def _sar(self, it: Step, to: int) -> None:
        self._shift(it, to, "sar", "sari")

    def _of_one(self, op: str, it: Step, to: int) -> None:
        self.row(op, f"r{to}", f"r{self.at(it.a)}", to=to, takes=(self.at(it.a),))

    def _neg(self, it: Step, to: int) -> None:
        self._of_one("twoc", it, to)

    def _not(self, it: Step, to: int) -> None:
        self._of_one("onec", it, to)

    def _ext16(self, it: Step, to: int) -> None:
        self._of_one("exts", it, to)

    def _ext8(self, it: Step, to: int) -> None:
        self.move(to, self.at(it.a))
        self._extend(to)

    def _set(self, it: Step) -> None:
        to = self.at(it.to)
        if it.condition == "lt" and it.b == 0:
            self.move(to, self.at(it.a))
            self.row("sri16", f"r{to}", "15", to=to, takes=(to,))
            return
        flag, on = self._compare(it)
        over = Block()
        self.row("lis", f"r{to}", "1", to=to)
        self.row("jb" if on else "jnb", flag, target=over)
        self.row("lis", f"r{to}", "0", to=to)
        self.lines.append(over)
        self.flags = None

    def _compare(self, it: Union[Step, End]) -> tuple[str, bool]:
        """Compares; tells the flag, and how it is where the condition holds."""
        a = self.at(it.a)
        without_sign = it.condition.endswith("u")
        flag, on = FLAG[it.condition[:2]]
        if isinstance(it.b, Reg):
            b = self.at(it.b)
            key: tuple[object, ...] = (without_sign, a, b)
            if self.flags == key or self.flags == (not without_sign, a, b) and flag == "eq":
                return flag, on
            self.row("cl" if without_sign else "c", f"r{a}", f"r{b}", takes=(a, b))
        else:
            assert isinstance(it.b, int)
            number = signed(it.b)
            key = (without_sign, a, f"n{number}")
            if self.flags == key or self.flags == (not without_sign, a, f"n{number}") and flag == "eq":
                return flag, on
            if not (number == 0 and (not without_sign or flag == "eq") and self._implied(a)):
                if without_sign:
                    self.row("cli", f"r{a}", str(number), takes=(a,))
                elif 0 <= number <= 15:
                    self.row("cis", f"r{a}", str(number), takes=(a,))
                else:
                    self.row("ci", f"r{a}", str(number), takes=(a,))
            elif without_sign:
                key = (False, a, "n0")
        self.flags = key
        return flag, on

    def _implied(self, register: int) -> bool:
        """Whether the row before tells how a register compares with 0, or can be made to tell."""
        last = self.lines[-1]
        if not isinstance(last, Row) or last.to != register:
            return False
        if last.op in RESULT or last.op in SUM:
            return True
        if last.op == "cal" and last.operands[1] in ("r0", "r1") or last.op not in ("inc", "dec", "cal", "cas"):
            return False
        if last.op == "cas":
            to, one, other = last.operands
            if to == one and other != "r0":
                last.op, last.operands = "a", [to, other]
            elif to == other and one != "r0":
                last.op, last.operands = "a", [to, one]
            else:
                return False
            return True
        last.op = SETS_FLAGS[last.op]
        return True

    def _end(self, end: End, after: Optional[Block]) -> None:
        if end.op == "jump":
            assert end.then is not None
            self._jump(end.then, after)
        elif end.op == "branch":
            assert end.then is not None and end.other is not None
            flag, on = self._compare(end)
            if end.then is after:
                self.row("jnb" if on else "jb", flag, target=end.other)
            else:
                self.row("jb" if on else "jnb", flag, target=end.then)
                self._jump(end.other, after)
        elif end.op == "return":
            self._return(end)

    def _jump(self, to: Block, after: Optional[Block]) -> None:
        if to is not after:
            self.row("jnb", "pz", target=to)

    def _return(self, end: End) -> None:
        if self.entry:
            self.row("svc", "0")
            return
        if end.a is not None:
            self.give((2,), [end.a])
        if self.saved < 16:
            op = "lm" if self.saved < LINK else "l"
            found = self.row(op, f"r{self.saved}", f"{self.frame - 4 * (16 - self.saved)}(r1)")
            found.also.update(range(self.saved, 16))
        if self.frame:
            self.row("bnbrx", "pz", "r15")
            self._adjust(self.frame)
        else:
            self.row("bnbr", "pz", "r15", takes=(LINK,))


def plus(name: str, offset: int) -> str:
    """A label, and so many bytes on."""
    return f"{name}+{offset}" if offset > 0 else f"{name}-{-offset}" if offset else name


def hexadecimal(number: int) -> str:
    """A number as it is read best."""
    return str(number) if number < 256 else f"0x{number:x}"


def fill(lines: list[Line], depth: dict[Block, int]) -> None:
    """Makes branches with execute, which run the row before them as their subject."""
    place, deep = 0, 0
    while place < len(lines):
        it = lines[place]
        if isinstance(it, Block):
            deep = depth.get(it, deep)
        elif isinstance(it, Row):
            _fill_one(lines, place, it, deep)
        place += 1


def _fill_one(lines: list[Line], place: int, it: Row, deep: int) -> None:
    """Makes one, where the row before may be its subject."""
    before = lines[place - 1] if place else None
    if not isinstance(before, Row) or before.op in BOUND or _is_subject(lines, place - 1):
        return
    if it.op in ("bnbr", "bali", "balr") and not _touches(before, it):
        lines[place - 1], lines[place] = it, before
        it.op += "x"
    elif deep and it.op == "jnb" and it.operands[0] == "pz":
        it.op, it.size = "bnbx", 4
        lines[place - 1], lines[place] = it, before
    elif deep and it.op in ("jb", "jnb") and not before.sets_flags and not before.also:
        it.op, it.size = ("bbx" if it.op == "jb" else "bnbx"), 4
        lines[place - 1], lines[place] = it, before
    elif deep and it.op in ("jb", "jnb"):
        compare = before
        earlier = lines[place - 2] if place > 1 else None
        if compare.op not in COMPARE or not isinstance(earlier, Row) or earlier.op in BOUND:
            return
        if earlier.sets_flags or earlier.to >= 0 and compare.takes >> earlier.to & 1 or earlier.also:
            return
        if _is_subject(lines, place - 2):
            return
        it.op, it.size = ("bbx" if it.op == "jb" else "bnbx"), 4
        lines[place - 2 : place + 1] = [compare, it, earlier]


def _is_subject(lines: list[Line], place: int) -> bool:
    """Whether a row is the subject of a branch."""
    before = lines[place - 1] if place else None
    return isinstance(before, Row) and before.op.endswith("x") and before.op in BOUND


def _touches(before: Row, branch: Row) -> bool:
    """Whether a row gives what a branch takes, or has to do with the link."""
    if before.also or before.takes >> LINK & 1 or before.to == LINK:
        return True
    return before.to >= 0 and bool(branch.takes >> before.to & 1)
