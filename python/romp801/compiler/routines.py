"""Routines for what the machine has no row for. Each takes r2 and r3, gives r2, and changes no register but these, r4,
r5 and r15, which has the way back."""
from __future__ import annotations

CHANGES = 1 << 2 | 1 << 3 | 1 << 4 | 1 << 5 | 1 << 15

MULTIPLY = """
{0}:    cl      r2, r3
        jnb     lt, {0}_a
        x       r2, r3
        x       r3, r2
        x       r2, r3
{0}_a:  cas     r4, r2, r0
        lis     r2, 0
{0}_b:  nilz    r5, r3, 1
        jb      eq, {0}_c
        a       r2, r4
{0}_c:  sri     r3, 1
        bnbx    eq, {0}_b
        cas     r4, r4, r4
        bnbr    pz, r15
"""
"""The smaller one's bits tell which of the other's doubles are added."""

DIVIDE = """
{0}:    cis     r3, 0
        jnb     eq, {0}_a
        tgte    r0, r0
{0}_a:  jb      lt, {0}_h
        lis     r4, 0
        cal     r5, r0, 8
        niuz    r4, r2, 0xff00
        jnb     eq, {0}_w
        sli     r2, 8
        niuz    r4, r2, 0xff00
        jnb     eq, {0}_x
        sli     r2, 8
        niuz    r4, r2, 0xff00
        jnb     eq, {0}_y
        sli     r2, 8
        jnb     pz, {0}_z
{0}_w:  inc     r5, 8
{0}_x:  inc     r5, 8
{0}_y:  inc     r5, 8
{0}_z:  lis     r4, 0
{0}_l:  a       r2, r2
        ae      r4, r4
        cl      r4, r3
        jb      lt, {0}_n
        s       r4, r3
        inc     r2, 1
{0}_n:  sis     r5, 1
        jnb     eq, {0}_l
        cas     r3, r4, r0
        bnbr    pz, r15
{0}_h:  cas     r4, r2, r0
        lis     r2, 0
        cl      r4, r3
        jb      lt, {0}_i
        s       r4, r3
        lis     r2, 1
{0}_i:  cas     r3, r4, r0
        bnbr    pz, r15
"""
"""The quotient without sign in r2, and in r3 what remains. Bytes of zeros in front are passed by. A divisor of the
highest bit goes once or not at all."""

REMAINDER = """
{0}:    st      r15, {0}_k(r0)
        bali    r15, {1}
        l       r15, {0}_k(r0)
        cas     r2, r3, r0
        bnbr    pz, r15
"""

DIVIDE_SIGNED = """
{0}:    st      r15, {0}_k(r0)
        cas     r4, r2, r0
        x       r4, r3
        st      r4, {0}_s(r0)
        abs     r2, r2
        abs     r3, r3
        bali    r15, {1}
        l       r15, {0}_k(r0)
        l       r4, {0}_s(r0)
        cis     r4, 0
        bnbr    lt, r15
        twoc    r2, r2
        bnbr    pz, r15
"""

REMAINDER_SIGNED = """
{0}:    st      r15, {0}_k(r0)
        st      r2, {0}_s(r0)
        abs     r2, r2
        abs     r3, r3
        bali    r15, {1}
        l       r15, {0}_k(r0)
        l       r4, {0}_s(r0)
        cas     r2, r3, r0
        cis     r4, 0
        bnbr    lt, r15
        twoc    r2, r2
        bnbr    pz, r15
"""

TEXTS = {"mul": MULTIPLY, "divu": DIVIDE, "remu": REMAINDER, "divs": DIVIDE_SIGNED, "rems": REMAINDER_SIGNED}
WORDS = {"mul": 0, "divu": 0, "remu": 1, "divs": 2, "rems": 2}
"""Words of private storage that each has: the way back, and a sign."""


def wanted(ops: set[str]) -> list[str]:
    """The routines that these want, in their order."""
    more = {"divu"} if ops & {"remu", "divs", "rems"} else set()
    return [it for it in TEXTS if it in ops | more]


def text(op: str, names: dict[str, str]) -> list[str]:
    """The lines of a routine, under its name."""
    return TEXTS[op].format(names[op], names.get("divu", "")).strip().split("\n")


def size(op: str) -> int:
    """Its bytes."""
    from romp801.job import size_of, tokens_of

    found = 0
    for line in TEXTS[op].format("n", "m").strip().split("\n"):
        tokens = tokens_of(line)
        found += size_of(tokens[2:] if tokens[1:2] == [":"] else tokens)
    return found
