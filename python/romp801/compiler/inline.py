"""Puts functions that are small, or called once, where they are called."""
from __future__ import annotations

from romp801.compiler.clone import Cloner
from romp801.compiler.code import Block, Body, Code, End, Step

SMALL = 8
"""Steps of a function that is put wherever it is called."""
ONCE = 120
"""Steps of one that is put where it is called once."""
MOST = 1500
"""Steps of a function that takes no more."""


def inline(bodies: dict[Code, Body], main: Code) -> bool:
    """Puts functions where they are called; says whether it did."""
    changed = False
    for _ in range(4):
        calls: dict[Code, int] = {}
        for body in bodies.values():
            for it in body.steps():
                if it.op == "call" and it.target is not None:
                    calls[it.target] = calls.get(it.target, 0) + 1
        again = False
        for code, body in bodies.items():
            again = _into(code, body, bodies, calls) or again
        changed = changed or again
        if not again:
            break
    return changed


def _size(body: Body) -> int:
    return sum(len(it.steps) + 1 for it in body.blocks)


def _fits(code: Code, it: Step, bodies: dict[Code, Body], calls: dict[Code, int]) -> bool:
    """Whether a call is replaced."""
    of = it.target
    if it.op != "call" or of is None or of is code or of not in bodies:
        return False
    body = bodies[of]
    if any(one.op == "call" and one.target in (of, code) for one in body.steps()):
        return False
    size = _size(body)
    if any(one.op == "call" for one in body.steps()) and size > SMALL:
        return False
    return size <= SMALL + len(it.args) or size <= ONCE and calls.get(of) == 1


def _into(code: Code, body: Body, bodies: dict[Code, Body], calls: dict[Code, int]) -> bool:
    """Replaces calls in a function."""
    changed = False
    at = 0
    while at < len(body.blocks):
        block = body.blocks[at]
        for place, it in enumerate(block.steps):
            if _fits(code, it, bodies, calls) and _size(body) < MOST:
                assert it.target is not None
                _replace(body, at, place, it, bodies[it.target])
                changed = True
                break
        at += 1
    return changed


def _replace(body: Body, at: int, place: int, it: Step, of: Body) -> None:
    """Puts a body's blocks where it is called."""
    block = body.blocks[at]
    rest = Block()
    rest.steps, rest.end = block.steps[place + 1 :], block.end
    cloner = Cloner()
    into = cloner.all(of)
    block.steps = block.steps[:place]
    for register, value in zip(of.parameters, it.args):
        block.steps.append(Step("move", cloner.register(register), value, place=it.place))
    block.end = End("jump", it.place)
    block.end.then = into[0]
    for one in into:
        if one.end.op == "return":
            if it.to is not None and one.end.a is not None:
                one.steps.append(Step("move", it.to, one.end.a, place=one.end.place))
            one.end = End("jump", one.end.place)
            one.end.then = rest
    body.blocks[at + 1 : at + 1] = [*into, rest]
