/* First values by name: what goes on behind a name, what is given twice, and what isn't given; strings side by side whose bytes
   are numbers; 0 as an address beside another; shifts that are too far where nothing comes by. */
#include <romp801.h>
#include <stddef.h>
struct three { int a, b, c; };
struct around { int a; struct { int b, c; union { int d; char e; }; }; int f; };
struct within { struct three t; int z; };
struct list { int x[3], y; };
static struct around one = { .b = 1, 2 }, two = { .c = 1, 2, 3 }, three = { .d = 4, 5 };
static struct within again = { .t = { 1, 2, 3 }, .t = { 4 } }, part = { .t = { 1, 2, 3 }, .t.b = 9, 8, 7 };
static struct list lists[3] = { [1].x[1] = 5, 6, 7, 8, 9, [0].y = 3 };
static int numbers[] = { [2] = 5, 6, [1] = 7, 8, [5] = 1 }, grid[3][2] = { [1] = { 1, 2 }, 3, 4, [0][1] = 6, 7 };
static const char texts[] = "\x1" "2\1" "1\0" "\61""a", word[4] = "\7" "8" "9", *const names[] = { [1] = "\33" "3", "b" };
static int a$b = 3, a_b = 4;
static void show(int v) { print_word((unsigned)v); }
static void all(const int *at, unsigned size) { for (size /= sizeof *at; size--; at++) show(*at); }
static void dirty(void) { int a[60], i; for (i = 0; i < 60; i++) a[i] = 0x5A5A5A5A + i; all(a, sizeof a); }
static void own(int p)
{
    int twice[3] = { [0] = p, [0] = 2 };
    struct around its = { .b = p, 2 };
    struct within last = { .t = { p, 2, 3 }, .t = { 4 } }, whole = { .t = again.t, .t = { p } };
    all(twice, sizeof twice); show(its.a); show(its.b); show(its.c); show(its.f); show(last.t.a); show(last.t.b); show(last.z);
    all(&whole.t.a, sizeof whole);
}
static unsigned far(unsigned v, int n) { return n ? v >> 33 : v << -1; }
void program(int p, unsigned q, short r, signed char t)
{
    int list[2] = { p, r }, *none = NULL;
    unsigned i;
    all(&one.a, 8); show(one.c); show(one.f); show(two.c); show(two.d); show(two.f); show(three.d); show(three.f); dirty(); own(p);
    all(&again.t.a, sizeof again); all(&part.t.a, sizeof part); all(lists[0].x, sizeof lists); all(numbers, sizeof numbers); all(grid[0], sizeof grid);
    for (i = 0; i < sizeof texts; i++) print_byte(texts[i]); for (i = 0; i < sizeof word; i++) print_byte(word[i]); print_text(names[1]); show(!names[0]);
    show(*(p ? &list[1] : NULL)); show(*(p ? list : (void *)0)); show((p ? NULL : list) == none); show(*(q ? p ? list + 1 : 0 : NULL)); none = t ? NULL : list; show(!none);
    for (i = 0; i < 2; i++) { int *both[] = { &a$b, &a_b }; show(*both[i]); }
    if (p == 4) show(far(q, p)); if (p == 5) { show(q << 32); show(p >> -3); show(1 << 40); }
}
