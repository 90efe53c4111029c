/* Structs and unions: by value, within each other, in a segment, and what begins with values. */
#include <romp801.h>
#include <stddef.h>
struct small { char a; };
struct mixed { char a; short b; int c; char d[5]; struct small s; unsigned short e; };
struct nested { struct mixed m[2]; union { int i; unsigned u; } v; struct { int x, y; }; struct nested *next; };
#pragma segment 1 rw
RECORD struct nested first, list[3];
RECORD struct mixed table[2][3];
#pragma segment none
static const struct mixed fixed = { 'a', -2, 3, "four", { 'e' }, 65535 };
static struct nested named = { .v.u = 9, .m[1].d = { [2] = 7, 8 }, .y = 5, .m[0] = { 1, .c = 6 }, .next = &named };
static struct mixed *pointers[] = { &named.m[1], (struct mixed *)&fixed, NULL };
static int grid[2][3][2] = { { { 1, 2 }, { 3 } }, { 4, 5, 6, 7 } };
static const char *const words[] = { "one", "two\0three", "" };
static char text[8] = "text";
static void show(int v) { print_word((unsigned)v); }
static void mixed(struct mixed m) { int i; show(m.a); show(m.b); show(m.c); for (i = 0; i < 5; i++) show(m.d[i]); show(m.s.a); show(m.e); m.c = 0; }
static struct mixed changed(struct mixed m, int by) { m.c += by; m.d[by & 3] = by; m.s = (struct small){ by }; return m; }
static struct small tiny(int v) { struct small s = { v }; return s; }
static struct nested *at(int i) { return &list[i]; }
void program(int p, unsigned q, short r, signed char t)
{
    struct mixed m = fixed, *pm = &m, two[2] = { { 1, 2 }, { .e = 4 } };
    struct nested n = { { { 0 } } };
    int i, j, k;
    mixed(m); mixed(*pm); mixed(changed(m, p)); mixed(two[0]); mixed(two[1]);
    m = p > 2 ? changed(fixed, 1) : fixed; mixed(m);
    n.m[1] = changed(m, r); n.v.i = q; n.x = 3; show(n.v.u); show(n.x + n.y); mixed(n.m[1]);
    first = n; first.next = &list[1]; *first.next = n; list[1].m[0] = *pm; list[1].next = at(2); at(2)->x = 11;
    show(first.next->next->x); mixed(first.next->m[0]); show(first.next == &list[1]); show(first.next - list); show(at(2) > first.next);
    table[1][2] = n.m[1]; table[0][1] = table[1][2]; mixed(table[0][1]); show(&table[1][0] - &table[0][0]); show(tiny(t).a);
    show(sizeof(struct mixed)); show(sizeof(struct nested)); show(offsetof(struct nested, next)); show(sizeof table); show(sizeof first.m[0].d);
    mixed(named.m[0]); mixed(named.m[1]); show(named.v.i); show(named.y); show(named.next == &named); mixed(*pointers[0]); show(pointers[2] == 0);
    for (i = 0; i < 2; i++) for (j = 0; j < 3; j++) for (k = 0; k < 2; k++) show(grid[i][j][k]);
    for (i = 0; i < 3; i++) print_text(words[i]);
    show(words[1][4]); print_text(text); show(sizeof text);
    { struct mixed *walk = two; walk++; show(walk->e); show((*--walk).b); show((walk + 1)->e); show(walk[1].e); }
    { struct { char c[3]; short s; } odd = { "ab", 4 }, copy; copy = odd; show(copy.c[1]); show(copy.s); show(sizeof odd); }
    { union { struct { int a, b; } s; int v[2]; } both; both.v[0] = 5; both.v[1] = 6; show(both.s.a + both.s.b * 10); }
    { int many[40] = { 1, 2, [30] = 3 }, sum = 0; struct nested copy = named; for (i = 0; i < 40; i++) sum += many[i] * (i + 1); show(sum); show(copy.y); }
}
