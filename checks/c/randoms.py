"""Random programs in C that do nothing that C leaves open: all operators, widths and signs, records in a segment,
structs by value, pointers, pointers to functions, strings, loops, switches and jumps. Each prints what it has left
behind."""
import random
from typing import List

TYPES = ("unsigned", "int", "short", "unsigned short", "signed char", "unsigned char", "char", "_Bool", "long")
SHIFTS = [1, 2, 3, 4, 5, 7, 8, 10, 12, 16, 24, 31]
NUMBERS = (0, 1, 2, 3, 7, 8, 15, 16, 31, 127, 128, 255, 256, 32767, 32768, 65535, 65536, 2147483647)
FRONT = """
struct rec {{ unsigned char a; short b; unsigned c; signed char d; }};
struct pair {{ int x; struct rec r; unsigned short t[3]; }};
union both {{ unsigned u; struct {{ short lo, hi; }} s; unsigned char b[4]; }};
enum kind {{ RED, GREEN = 5, BLUE }};
enum sign {{ LOW = -3, HIGH = 70000 }};
#pragma segment 1 rw
RECORD unsigned g[8];
RECORD struct rec h[8];
RECORD struct pair one, two;
RECORD unsigned char text[16];
RECORD short grid[3][5];
#pragma segment none
void print_byte(unsigned);
static unsigned own[4] = {{ 1, {n0}u, [3] = 0x{n1:x} }};
static const char word[] = "ab\\0c\\377";
static struct pair start = {{ .x = -{n2}, .t = {{ 1, 2 }}, .r.c = 77 }};
static short *where = &start.r.b;
static void print_word(unsigned v) {{ print_byte(v >> 24); print_byte(v >> 16); print_byte(v >> 8); print_byte(v); }}
"""
BACK = """
static void print_rec(const struct rec *r) { print_word(r->a); print_word(r->b); print_word(r->c); print_word(r->d); }
static void print_pair(struct pair p)
{
    int i;
    print_word(p.x); print_rec(&p.r);
    for (i = 0; i < 3; i++) print_word(p.t[i]);
}
static void print_all(void)
{
    int i, j;
    for (i = 0; i < 8; i++) { print_word(g[i]); print_rec(h + i); }
    for (i = 0; i < 4; i++) print_word(own[i]);
    for (i = 0; i < 16; i++) print_byte(text[i]);
    for (i = 0; i < 3; i++) for (j = 0; j < 5; j++) print_word(grid[i][j]);
    print_pair(one); print_pair(two); print_pair(start); print_word(*where);
}
"""


class Maker:
    """Makes one program."""

    def __init__(self, seed: int) -> None:
        self.r = random.Random(seed)
        self.labels = 0
        self.counts = 0

    def place(self, names: List[str]) -> str:
        """A place of a record or a variable."""
        r = self.r

        def i() -> str:
            return f"(unsigned)({r.choice(names)})"

        return r.choice([
            *names, *names, f"g[{r.randrange(8)}]", f"g[{i()} & 7]", f"h[{i()} % 8u].{r.choice('abcd')}",
            f"own[{i()} & 3]", f"text[{i()} & 15]", f"grid[{i()} % 3u][{i()} % 5u]", "one.x", f"two.t[{i()} % 3u]",
            "one.r.b", "start.x", "two.r.c",
            f"(&h[3])[-(int)({i()} & 3)].b", f"(*(text + ({i()} & 15)))", f"(*(&grid[1]))[{i()} % 5u]"])

    def leaf(self, names: List[str]) -> str:
        """A value without operators."""
        r = self.r
        return r.choice([
            self.place(names), self.place(names), self.place(names), f"{r.choice(NUMBERS)}u", f"{r.choice(NUMBERS)}",
            f"(-{r.choice(NUMBERS)})", f"'{r.choice('az09')}'", r.choice(["RED", "GREEN", "BLUE", "LOW", "HIGH"]),
            f"word[{r.randrange(6)}]", "*where",
            f"sizeof(struct {r.choice(['rec', 'pair'])})", f"(int){r.randrange(-70000, 70000)}", "sizeof grid[0]"])

    def expr(self, depth: int, names: List[str]) -> str:
        """A value."""
        r = self.r
        if depth == 0 or r.random() < .12:
            return self.leaf(names)

        def e() -> str:
            return self.expr(depth - 1, names)

        k = r.randrange(17)
        if k < 4:
            return f"({e()} {r.choice(['+', '-', '*', '&', '|', '^'])} {e()})"
        if k == 4:
            return f"({e()} {r.choice('/%')} (({e()}) & 0xfff | 1))"
        if k == 5:
            return f"((unsigned)({e()}) {r.choice('/%')} ((unsigned)({e()}) | 1u))"
        if k == 6:
            return f"({e()} {r.choice(['<<', '>>'])} (({e()}) & 31))"
        if k == 7:
            return f"({e()} {r.choice(['<<', '>>', '*', '/', '%'])} {r.choice(SHIFTS)})"
        if k in (8, 9):
            return f"({e()} {r.choice(['<', '>', '<=', '>=', '==', '!='])} {e()})"
        if k == 10:
            return f"({e()} ? {e()} : {e()})"
        if k == 11:
            return f"({r.choice(['~', '-', '!', '+'])}({e()}))"
        if k in (12, 13):
            return f"(({r.choice(TYPES)})({e()}))"
        if k == 14:
            return f"({e()} {r.choice(['&&', '||'])} {e()})"
        if k == 15:
            return f"({e()}, {e()})"
        return r.choice([
            f"add3(({e()}), {e()}, {e()})", f"many({e()}, {e()}, {e()}, {e()}, {e()}, {e()}, {e()})",
            f"down({e()}, ({e()}) & 7)",
            f"ops[({e()}) & 1]({e()}, {e()})", f"sum((struct rec){{ {e()}, {e()}, {e()} }})", f"make({e()}, {e()}).r.c",
            f"split({e()}).s.hi + split({e()}).s.lo"])

    def stmt(self, depth: int, names: List[str]) -> str:
        """A statement."""
        k = self.r.randrange(18)
        if k < 5 or depth == 0:
            return self.change(names)
        if k in (5, 9, 13):
            return self.choice(k, depth, names)
        if k in (6, 7, 8):
            return self.loop(k, depth, names)
        if k in (10, 11, 12, 16):
            return self.records(k, names)
        return self.block(k, names)

    def name(self, kind: str) -> str:
        """A name that nothing has yet."""
        self.counts += 1
        return f"{kind}{self.counts}"

    def change(self, names: List[str]) -> str:
        """A place is changed."""
        r, to = self.r, self.place(names)
        return r.choice([
            f"{to} = {self.expr(3, names)};",
            f"{to} {r.choice(['+', '-', '^', '|', '&', '*'])}= {self.expr(2, names)};",
            f"{to} {r.choice(['<<', '>>'])}= ({self.expr(1, names)}) & 31;", f"{r.choice(['++', '--'])}{to};",
            f"{to}{r.choice(['++', '--'])};", f"{to} {r.choice('/%')}= ({self.expr(1, names)}) & 255 | 1;"])

    def choice(self, k: int, depth: int, names: List[str]) -> str:
        """An if, a switch, or a jump."""
        r = self.r

        def s() -> str:
            return self.stmt(depth - 1, names)

        if k == 5:
            return f"if ({self.expr(2, names)}) {{ {s()} }} else {{ {s()} {s()} }}"
        if k == 9:
            numbers = sorted(r.sample(range(-2, 14), r.randrange(1, 9)))
            cases = " ".join(f"case {n}: {s()} {r.choice(['break;', ''])}" for n in numbers)
            return f"switch ((int)({self.expr(2, names)}) % 12) {{ {cases} default: {s()} }}"
        self.labels += 1
        n = self.labels
        return f"if ({self.expr(2, names)}) goto out{n}; {s()} {s()} out{n}: ;"

    def loop(self, k: int, depth: int, names: List[str]) -> str:
        """A loop."""
        r, v = self.r, self.name("i")

        def s() -> str:
            return self.stmt(depth - 1, names)

        if k == 6:
            return (f"for (unsigned {v} = 0; {v} < {r.randrange(1, 6)}u; {v}++) {{ {s()} "
                    f"if ({self.expr(1, names)}) {r.choice(['break', 'continue'])}; g[{v} & 7] += {v}; {s()} }}")
        if k == 7:
            end = r.choice(["", "> 0", "!= 0"])
            return f"{{ int {v} = {r.randrange(1, 5)}; do {{ {s()} }} while (--{v} {end}); }}"
        kind = r.choice(["short", "unsigned char", "int"])
        return f"{{ {kind} {v} = {r.randrange(0, 6)}; while ({v}--) {{ {s()} }} }}"

    def records(self, k: int, names: List[str]) -> str:
        """Pointers into records, structs that are assigned, and a call."""
        r = self.r

        def e() -> str:
            return self.expr(1, names)

        if k == 10:
            return (f"{{ unsigned *p = &g[{r.randrange(8)}]; *p ^= {self.expr(2, names)}; p = g + (({e()}) & 7); "
                    f"{r.choice(names)} += *p + (p - g) + (p > g + 3); }}")
        if k == 11:
            return f"{r.choice(['one', 'two', 'start'])} = {r.choice(['one', 'two', 'start', f'make({e()}, {e()})'])};"
        if k == 12:
            return f"h[({e()}) & 7] = {r.choice(['h[2]', 'one.r', 'two.r', f'h[({e()}) & 7]'])};"
        return f"{r.choice(names)} = tick({e()});"

    def block(self, k: int, names: List[str]) -> str:
        """A block with variables of its own."""
        r, v = self.r, self.name("v")

        def e() -> str:
            return self.expr(1, names)

        if k == 14:
            return (f"{{ {r.choice(TYPES)} {v}[{r.randrange(2, 9)}] = {{ {e()}, [1] = {e()} }}; "
                    f"{r.choice(names)} ^= {v}[({e()}) & 1]; {v}[1] = {e()}; g[1] += {v}[1]; }}")
        if k == 15:
            return (f"{{ struct rec {v} = {{ .c = {self.expr(2, names)}, .b = {e()} }}; {v}.a += {v}.c; "
                    f"{r.choice(names)} += sum({v}); h[{r.randrange(8)}] = {v}; }}")
        return f"{{ unsigned {v} = {e()}; bump(&{v}, &h[({e()}) & 7]); {r.choice(names)} ^= {v}; }}"

    def functions(self) -> str:
        """Functions that the program calls; none changes a record, but tick and bump."""

        def t() -> str:
            return self.r.choice(TYPES)

        def e(depth: int, *names: str) -> str:
            return self.expr_of(depth, list(names))

        return f"""
static {t()} add3({t()} x, {t()} y, {t()} z)
{{
    {t()} w = {e(2, 'x', 'y', 'z')};
    return w > x ? {e(1, 'w', 'y')} : {e(2, 'x', 'y', 'z', 'w')};
}}
static unsigned many({t()} a, {t()} b, {t()} c, {t()} d, {t()} x, {t()} y, {t()} z)
{{
    return {e(2, 'a', 'b', 'c', 'd')} + x * 3 - y + (z ^ {e(1, 'x', 'y', 'z')});
}}
static int down(int x, unsigned n) {{ return n ? down(x + {e(1, 'x', 'n')}, n - 1) - n : {e(1, 'x')}; }}
static int op0(int x, int y) {{ return {e(2, 'x', 'y')}; }}
static int op1(int x, int y) {{ return {e(2, 'x', 'y')}; }}
static int (*ops[2])(int, int) = {{ op0, &op1 }};
static unsigned sum(struct rec r) {{ r.a ^= 5; return r.a + r.b * 2 + r.c - r.d; }}
static struct pair make(int x, unsigned y)
{{
    struct pair p = {{ x, {{ y, x, y - x, 1 }}, {{ 9, y }} }};
    p.t[2] = p.r.c;
    return p;
}}
static union both split(unsigned v) {{ union both b; b.s.lo = v; b.s.hi = v >> 16; return b; }}
static unsigned tick({t()} by)
{{
    static unsigned count = 3;
    static {t()} last;
    count += by; last ^= count; g[7] += last;
    return count;
}}
static void bump(unsigned *n, struct rec *r) {{ *n += r->c; r->b -= *n; (*n)++; r++; r[-1].d ^= 3; }}
"""

    def expr_of(self, depth: int, names: List[str]) -> str:
        """A value without calls."""
        while True:
            found = self.expr(depth, names)
            if not any(it in found for it in ("add3(", "many(", "down(", "ops[", "sum(", "make(", "split(")):
                return found

    def program(self) -> str:
        """The whole program."""
        r = self.r
        names = ["a", "b", "c", "d", "u", "v", "w", "x"]
        body = "\n    ".join(self.stmt(2, names) for _ in range(r.randrange(3, 9)))
        first = f"{r.choice(TYPES)} x = {self.expr(1, ['a', 'b', 'c', 'd'])};"
        front = FRONT.format(n0=r.choice(NUMBERS), n1=r.randrange(1 << 32), n2=r.choice(NUMBERS))
        return f"""{front}{BACK}{self.functions()}
void program({r.choice(TYPES)} a, {r.choice(TYPES)} b, int c, unsigned d)
{{
    {r.choice(TYPES)} u = a; {r.choice(TYPES)} v = b; unsigned w = 5; {first}
    {body}
    print_all();
    print_word(u); print_word(v); print_word(w); print_word(x);
    print_word(a); print_word(b); print_word(c); print_word(d);
}}
"""


def values_of(seed: int) -> List[int]:
    """What the program is given."""
    r = random.Random(-seed)
    return [r.choice([0, 1, 5, 0x80000000, 0xFFFFFFFF, r.randrange(1 << 32)]) for _ in range(4)]
