"""Makes a body better: what is known is put in, what was computed isn't computed again, and what nobody takes is left
out."""
from __future__ import annotations

from typing import Optional, Union

from romp801.compiler import flow
from romp801.compiler.code import (
    PURE,
    ROUTINES,
    STACK,
    SWAPPED,
    TURNED,
    Block,
    Body,
    End,
    Reg,
    Spot,
    Step,
    Symbol,
    Value,
    compare,
    compute,
    signed,
    word,
)

Name = Union[int, Symbol, Spot, "Known"]
Span = tuple[int, int]
ANY: Span = (-(1 << 31), (1 << 31) - 1)
COMMUTES = frozenset("add mul and or xor".split())
DIGITS = 6
"""Digits of a constant up to which a multiplication by it is sums and shifts."""
ROUNDS = 4


class Known:
    """A value that isn't a constant: what made it, and between which numbers it is."""

    __slots__ = ("made", "span")

    def __init__(self, made: Optional[tuple[object, ...]] = None, span: Span = ANY) -> None:
        self.made, self.span = made, span


class State:
    """What is known at a place: which value each register has, which registers have a value, what was computed, and
    what lies in memory."""

    def __init__(self, outer: Optional[State] = None) -> None:
        self.names: dict[Reg, Name] = dict(outer.names) if outer else {}
        self.holders: dict[Name, list[Reg]] = {k: list(v) for k, v in outer.holders.items()} if outer else {}
        self.made: dict[tuple[object, ...], Name] = dict(outer.made) if outer else {}
        self.memory: dict[tuple[Name, int, int, bool], Name] = dict(outer.memory) if outer else {}

    def name(self, value: Value) -> Name:
        """The value that something is."""
        if not isinstance(value, Reg):
            return value
        found = self.names.get(value)
        if found is None:
            found = Known(span=value.span or ANY)
            self.give(value, found)
        return found

    def give(self, to: Reg, name: Name) -> None:
        """A register gets a value."""
        if isinstance(name, Known) and to.span is not None:
            name.span = max(name.span[0], to.span[0]), min(name.span[1], to.span[1])
        self.names[to] = name
        holders = self.holders.setdefault(name, [])
        if to not in holders:
            holders.append(to)

    def best(self, name: Name) -> Optional[Value]:
        """A constant, or a register that has a value still."""
        if not isinstance(name, Known):
            return name
        for it in self.holders.get(name, ()):
            if self.names.get(it) is name:
                return it
        return None


def span_of(name: Name) -> Span:
    """Between which numbers, with sign, a value is."""
    if isinstance(name, int):
        return signed(name), signed(name)
    return name.span if isinstance(name, Known) else ANY


class Improver:
    """Improves a body once; `plain` is false where each access of memory has to be done."""

    def __init__(self, body: Body, plain: bool) -> None:
        self.body, self.plain = body, plain
        self.fixed = self._fixed()
        self.state = State()
        self.out: list[Step] = []

    def _fixed(self) -> dict[Reg, Value]:
        """The registers that have one constant, or are another register, for good."""
        count: dict[Reg, int] = {it: 1 for it in self.body.parameters}
        for step in self.body.steps():
            if step.to is not None:
                count[step.to] = count.get(step.to, 0) + 1
        found: dict[Reg, Value] = {}
        for step in self.body.steps():
            if step.op == "move" and step.to is not None and count[step.to] == 1 and step.a is not None:
                if not isinstance(step.a, Reg) or step.a in self.body.parameters and count[step.a] == 1:
                    found[step.to] = step.a
        return found

    def run(self) -> None:
        """All blocks, each with what is known behind the only one before it."""
        before = flow.predecessors(self.body)
        states: dict[Block, State] = {}
        for block in flow.ordered(self.body):
            outer = before[block][0] if len(before[block]) == 1 and block is not self.body.blocks[0] else None
            self.state = State(states.get(outer) if outer is not None else None)
            self.out = []
            for step in block.steps:
                self._step(step)
            self._end(block.end)
            block.steps = self.out
            states[block] = self.state

    def value(self, it: Value) -> Value:
        """The best that is known of a value."""
        for _ in range(8):
            if isinstance(it, Reg) and it in self.fixed:
                it = self.fixed[it]
        best = self.state.best(self.state.name(it))
        return it if best is None else best

    def _step(self, it: Step) -> None:
        if it.a is not None:
            it.a = self.value(it.a)
        if it.b is not None:
            it.b = self.value(it.b)
        it.args = [self.value(one) for one in it.args]
        if it.op == "load":
            self._load(it)
        elif it.op == "store":
            self._store(it)
        elif it.op in PURE or it.op in ROUTINES:
            self._compute(it)
        elif it.op == "limit":
            low, high = span_of(self.state.name(it.a if it.a is not None else 0))
            if not 0 <= low <= high <= 31:
                self.out.append(it)
        else:
            if it.op == "call":
                self.state.memory.clear()
            self.out.append(it)
            if it.to is not None:
                self.state.give(it.to, Known())

    def _give(self, it: Step, value: Value) -> None:
        """A step gives a value that there is."""
        assert it.to is not None
        if value is it.to:
            return
        name = self.state.name(value)
        moved = Step("move", it.to, value, place=it.place)
        self.out.append(moved)
        self.state.give(it.to, name)

    def _emit(self, op: str, to: Reg, a: Value, b: Optional[Value], it: Step) -> None:
        """A step more, in front of one."""
        self._step(Step(op, to, a, b, place=it.place))

    def _compute(self, it: Step) -> None:
        assert it.to is not None and it.a is not None
        if it.op == "move":
            self._give(it, it.a)
            return
        if it.op == "set":
            self._set(it)
            return
        known = self._folded(it)
        if known is not None:
            self._give(it, known)
            return
        if self._expand(it):
            return
        self._remember(it)

    def _remember(self, it: Step) -> None:
        """Gives what was computed already, or computes it."""
        assert it.to is not None and it.a is not None
        a = self.state.name(it.a)
        b = None if it.b is None else self.state.name(it.b)
        key = (it.op, it.condition, a, b)
        name = self.state.made.get(key)
        if name is not None:
            best = self.state.best(name)
            if best is not None:
                self._give(it, best)
                return
        found = Known(key, _span(it.op, a, b))
        self.out.append(it)
        self.state.give(it.to, found)
        self.state.made[key] = found

    def _folded(self, it: Step) -> Optional[Value]:
        """The value that a step gives, where there is one already."""
        a, b = it.a, it.b
        if it.op in ("shl", "shr", "sar") and isinstance(b, int) and b > 31:
            return 0  # (it isn't reached: the limit in front of it doesn't hold)
        if isinstance(a, int) and (b is None or isinstance(b, int)):
            return compute(it.op, a, b or 0)
        if it.op in COMMUTES and (not isinstance(a, Reg) and isinstance(b, Reg) or isinstance(a, int)):
            it.a, it.b = a, b = b, a
        if it.op == "sub" and isinstance(b, int):
            it.op, it.b, b = "add", word(-b), word(-b)
        if isinstance(b, int):
            return self._with_number(it, b)
        if it.op in ("sub", "xor") and a is b:
            return 0
        if it.op in ("and", "or") and a is b:
            return a
        if it.op in ("ext8", "ext16"):
            low, high = span_of(self.state.name(a)) if a is not None else ANY
            most = 0x7F if it.op == "ext8" else 0x7FFF
            return a if -most - 1 <= low and high <= most else None
        return None

    def _with_number(self, it: Step, number: int) -> Optional[Value]:
        """What a step gives whose second value is a number."""
        a, op = it.a, it.op
        assert a is not None
        if op in ("add", "or", "xor", "shl", "shr", "sar") and number == 0:
            return a
        if op in ("mul", "divu", "divs") and number == 1:
            return a
        if op in ("mul", "and") and number == 0:
            return 0
        if op == "add" and isinstance(a, Symbol):
            return Symbol(a.thing, a.offset + signed(number))
        if op == "add" and isinstance(a, Spot):
            return Spot(a.slot, a.offset + signed(number))
        name = self.state.name(a)
        low, high = span_of(name)
        if op == "and" and low >= 0 and high <= number and number & number + 1 == 0:
            return a
        made = name.made if isinstance(name, Known) else None
        if made is not None and made[0] == op and isinstance(made[3], int) and op in ("add", "and", "or", "xor"):
            inner = self.state.best(made[2])  # type: ignore[arg-type]
            both = compute(op, made[3], number)
            if inner is not None and both is not None and (op != "add" or _is_small(both)):
                it.a, it.b = inner, both
                return inner if op == "add" and both == 0 else None
        return None

    def _expand(self, it: Step) -> bool:
        """Writes a step as others that are cheaper."""
        b = it.b
        if not isinstance(b, int) or it.to is None or it.a is None:
            return False
        if it.op == "mul":
            return self._multiply(it, it.a, b)
        power = b.bit_length() - 1 if b and b & b - 1 == 0 else -1
        positive = span_of(self.state.name(it.a))[0] >= 0
        if it.op in ("divu", "remu") and power >= 0 or it.op in ("divs", "rems") and positive and 0 <= power < 31:
            self._emit("shr" if it.op[0] == "d" else "and", it.to, it.a, power if it.op[0] == "d" else b - 1, it)
            return True
        if it.op in ("divs", "rems") and 0 < power < 31:
            sign, raised, whole = Reg(), Reg(), Reg()
            self._emit("sar", sign, it.a, 31, it)
            self._emit("shr", raised, sign, 32 - power, it)
            self._emit("add", whole, it.a, raised, it)
            if it.op == "divs":
                self._emit("sar", it.to, whole, power, it)
            else:
                low = Reg()
                self._emit("and", low, whole, b - 1, it)
                self._emit("sub", it.to, low, raised, it)
            return True
        if it.op in ("divs", "rems") and positive and b < 1 << 31:
            self._emit("divu" if it.op == "divs" else "remu", it.to, it.a, b, it)
            return True
        return self._split(it, it.a, b)

    def _split(self, it: Step, a: Value, b: int) -> bool:
        """A sum with a large number as two, of which the second may become a displacement; a shift of a sum as a sum of
        a shift."""
        assert it.to is not None
        low = (b + 0x8000 & 0xFFFF) - 0x8000
        if it.op == "add" and not _is_small(b) and low and isinstance(a, Reg):
            return self._in_two("add", it, a, word(b - low), word(low))
        name = self.state.name(a)
        if it.op in ("shl", "add") and isinstance(name, Known) and name.made is not None and name.made[0] == "add":
            inner, number = self.state.best(name.made[2]), name.made[3]  # type: ignore[arg-type]
            if isinstance(number, int) and isinstance(inner, Reg):
                if it.op == "shl":
                    return self._in_two("shl", it, inner, b, word(number << b))
                if _is_small(number) and not _is_small(b):
                    return self._in_two("add", it, inner, b, number)
        return False

    def _in_two(self, op: str, it: Step, a: Value, b: int, more: int) -> bool:
        """A step, and a sum with a number behind it."""
        assert it.to is not None
        first = Reg()
        self._emit(op, first, a, b, it)
        self._emit("add", it.to, first, more, it)
        return True

    def _multiply(self, it: Step, a: Value, number: int) -> bool:
        """A multiplication by a number as sums and shifts."""
        assert it.to is not None
        trailing = (number & -number).bit_length() - 1
        digits = _digits(signed(number) >> trailing)
        if len(digits) > DIGITS:
            return False
        found, last = a, digits[0][0]
        if digits[0][1] < 0:
            found = Reg()
            self._emit("neg", found, a, None, it)
        for place, sign in digits[1:]:
            moved, more = Reg(), Reg()
            self._emit("shl", moved, found, last - place, it)
            self._emit("add" if sign > 0 else "sub", more, moved, a, it)
            found, last = more, place
        self._emit("shl", it.to, found, trailing, it)
        return True

    def _condition(self, it: Union[Step, End]) -> Optional[bool]:
        """Whether a condition holds, where that is told; else it is made plainer."""
        a, b = it.a, it.b
        assert a is not None and b is not None
        if isinstance(a, int) and isinstance(b, int):
            return compare(it.condition, a, b)
        if isinstance(a, (Symbol, Spot)) and not isinstance(b, Reg) and it.condition in ("eq", "ne"):
            return (a == b) == (it.condition == "eq")
        if a is b and isinstance(a, Reg):
            return it.condition[:2] in ("eq", "le", "ge")
        if not isinstance(a, Reg) and isinstance(b, Reg):
            it.a, it.b, it.condition = b, a, SWAPPED[it.condition]
            a, b = b, a
        name = self.state.name(a)
        if b == 0 and it.condition in ("eq", "ne") and isinstance(name, Known) and name.made is not None:
            op, condition, one, other = name.made
            if op == "set":
                x = self.state.best(one)  # type: ignore[arg-type]
                y = self.state.best(other)  # type: ignore[arg-type]
                if x is not None and y is not None:
                    it.a, it.b = x, y
                    it.condition = str(condition) if it.condition == "ne" else TURNED[str(condition)]
                    return self._condition(it)
        return self._by_span(it, span_of(name), span_of(self.state.name(b)))

    def _by_span(self, it: Union[Step, End], one: Span, other: Span) -> Optional[bool]:
        """What the ranges of two values tell of them."""
        condition = it.condition
        if condition.endswith("u"):
            if one[0] < 0 or other[0] < 0:
                return {"ltu": False, "geu": True}.get(condition) if it.b == 0 else None
            condition = condition[:-1]
        if one[1] < other[0]:
            return condition in ("lt", "le", "ne")
        if one[0] > other[1]:
            return condition in ("gt", "ge", "ne")
        if condition == "ge" and one[0] >= other[1] or condition == "le" and one[1] <= other[0]:
            return True
        if condition == "lt" and one[0] >= other[1] or condition == "gt" and one[1] <= other[0]:
            return False
        return None

    def _set(self, it: Step) -> None:
        known = self._condition(it)
        if known is not None:
            self._give(it, int(known))
            return
        if it.condition == "ne" and it.b == 0 and it.a is not None:
            low, high = span_of(self.state.name(it.a))
            if 0 <= low and high <= 1:
                self._give(it, it.a)
                return
        self._remember(it)

    def _end(self, end: End) -> None:
        if end.a is not None:
            end.a = self.value(end.a)
        if end.b is not None:
            end.b = self.value(end.b)
        if end.op == "branch":
            known = self._condition(end)
            if known is not None:
                end.op, end.then = "jump", end.then if known else end.other
                end.other = end.a = end.b = None

    def _based(self, it: Step) -> tuple[Name, int]:
        """The address of an access, as a value and a distance; what was added to it goes into the step."""
        assert it.a is not None
        while isinstance(it.a, Reg) and it.near is None:
            name = self.state.name(it.a)
            made = name.made if isinstance(name, Known) else None
            if made is None or made[0] != "add":
                break
            inner = self.state.best(made[2])  # type: ignore[arg-type]
            if isinstance(made[3], (Symbol, Spot)) and isinstance(inner, Reg):
                return self._beside(it, name, inner, made[3])
            if inner is None or not isinstance(made[3], int):
                break
            far = it.offset + signed(made[3])
            if not -0x8000 <= far < 0x8000:
                break
            it.a, it.offset = inner, far
        if isinstance(it.a, int):
            it.a, it.offset = word(it.a + it.offset), 0
            return 0, it.a
        if isinstance(it.a, Symbol):
            it.a, it.offset = Symbol(it.a.thing, it.a.offset + it.offset), 0
            return Symbol(it.a.thing), it.a.offset
        if isinstance(it.a, Spot):
            it.a, it.offset = Spot(it.a.slot, it.a.offset + it.offset), 0
            return Spot(it.a.slot), it.a.offset
        return (Known() if it.near is not None else self.state.name(it.a)), it.offset

    def _beside(self, it: Step, name: Name, inner: Reg, beside: Union[Symbol, Spot]) -> tuple[Name, int]:
        """An access so far from a thing or a slot as a register tells."""
        at = it.offset
        it.offset += beside.offset
        if isinstance(beside, Symbol):
            it.a, it.near = inner, beside.thing
        else:
            base = Reg()
            self._emit("add", base, inner, STACK, it)
            it.a, it.near = self.value(base), beside.slot
        return name, at

    def _load(self, it: Step) -> None:
        assert it.to is not None
        base, at = self._based(it)
        key = (base, at, it.size, it.signed)
        name = self.state.memory.get(key) if self.plain else None
        if name is not None:
            best = self.state.best(name)
            if best is not None:
                self._give(it, best)
                return
        span = ANY
        if it.size < 4:
            bits = 8 * it.size
            span = (-(1 << bits - 1), (1 << bits - 1) - 1) if it.signed else (0, (1 << bits) - 1)
        found = Known(None, span)
        self.out.append(it)
        self.state.give(it.to, found)
        self.state.memory[key] = found

    def _store(self, it: Step) -> None:
        base, at = self._based(it)
        assert it.b is not None
        self._widen(it)
        for key in [key for key in self.state.memory if _may_meet(key, base, at, it.size)]:
            del self.state.memory[key]
        self.out.append(it)
        name = self.state.name(it.b)
        low, high = span_of(name)
        for its in (True, False):
            bits = 8 * it.size
            least, most = (-(1 << bits - 1), (1 << bits - 1) - 1) if its else (0, (1 << bits) - 1)
            if it.size == 4 or least <= low and high <= most:
                self.state.memory[base, at, it.size, its] = name

    def _widen(self, it: Step) -> None:
        """A value that is stored as fewer bytes needn't be made smaller before."""
        while it.size < 4 and isinstance(it.b, Reg):
            name = self.state.name(it.b)
            made = name.made if isinstance(name, Known) else None
            if made is None:
                return
            bits = (1 << 8 * it.size) - 1
            if not (made[0] == "and" and isinstance(made[3], int) and made[3] & bits == bits
                    or made[0] == "ext16" or made[0] == "ext8" and it.size == 1):
                return
            inner = self.state.best(made[2])  # type: ignore[arg-type]
            if inner is None:
                return
            it.b = inner


def _is_small(number: int) -> bool:
    """Whether a number is one of sixteen bits with a sign."""
    return -0x8000 <= signed(number) < 0x8000


def _may_meet(key: tuple[Name, int, int, bool], base: Name, at: int, size: int) -> bool:
    """Whether what lies at one address may be where something is stored."""
    other, there, its_size, _ = key
    if other is base or other == base:
        return there < at + size and at < there + its_size
    if isinstance(other, Known) or isinstance(base, Known):
        return True
    # (a number below the segments is an address of the program's own)
    return other == 0 and there < 1 << 28 or base == 0 and at < 1 << 28


def _span(op: str, a: Name, b: Optional[Name]) -> Span:
    """Between which numbers the outcome of a step is."""
    low, high = span_of(a)
    if op == "set":
        return 0, 1
    if op in ("ext8", "ext16"):
        most = 0x7F if op == "ext8" else 0x7FFF
        return -most - 1, most
    if op == "and":
        highs = [span[1] for span in (span_of(a), ANY if b is None else span_of(b)) if span[0] >= 0]
        return (0, min(highs)) if highs else ANY
    if not isinstance(b, int):
        return (0, max(high, 0)) if op in ("divu", "remu") and low >= 0 else ANY
    if op == "shr" and b:
        return (low >> b, high >> b) if low >= 0 else (0, (1 << 32 - b) - 1)
    if op == "sar":
        return low >> b, high >> b
    if op == "remu" and 0 < b < 1 << 31:
        return 0, b - 1
    if op == "divu" and b > 1:
        return 0, ((1 << 32) - 1) // b
    if op == "add":
        low, high = low + signed(b), high + signed(b)
    elif op == "shl":
        low, high = low << b, high << b
    elif op in ("or", "xor") and low >= 0 and signed(b) >= 0:
        return 0, (1 << max(high.bit_length(), b.bit_length())) - 1
    else:
        return ANY
    return (low, high) if ANY[0] <= low and high <= ANY[1] else ANY


def _digits(number: int) -> list[tuple[int, int]]:
    """A number as powers of two that are added and taken away, the highest first."""
    found, place = [], 0
    while number:
        if number & 1:
            sign = 1 if number == 3 else 2 - (number & 3)
            found.append((place, sign))
            number -= sign
        number >>= 1
        place += 1
    return found[::-1]


def sweep(body: Body, plain: bool) -> None:
    """Leaves out steps whose values nobody takes."""
    live = flow.Live(body)
    free = PURE | (frozenset(("load",)) if plain else frozenset())
    for block in body.blocks:
        bits = live.behind[block] | live.mask(block.end.uses())
        kept = []
        for it in reversed(block.steps):
            gives = live.bits[it.to] if it.to is not None else 0
            idle = it.op in free or it.op == "mul"
            if it.to is not None and not gives & bits and idle or it.op == "move" and it.a is it.to:
                continue
            bits = bits & ~gives | live.mask(it.uses())
            kept.append(it)
        block.steps = kept[::-1]


def improve(body: Body, plain: bool) -> None:
    """Improves a body as far as it goes."""
    flow.tidy(body)
    for _ in range(ROUNDS):
        before = repr(body) if len(body.blocks) < 400 else ""
        Improver(body, plain).run()
        flow.tidy(body)
        sweep(body, plain)
        flow.tidy(body)
        if before and repr(body) == before:
            break
