/* Statements: loops, switches within each other and across a loop, jumps, recursion, pointers to functions, many parameters. */
#include <romp801.h>
#include <string.h>
typedef int (*operation)(int, int);
static void show(int v) { print_word((unsigned)v); }
static int add(int a, int b) { return a + b; }
static int take(int a, int b) { return a - b; }
static operation choose(int which) { return which ? take : add; }
static int apply(operation f, int a, int b) { return f ? f(a, b) : -1; }
static struct { const char *name; operation f; } table[] = { { "add", add }, { "take", &take }, { 0, 0 } };
static int ackermann(int m, int n) { return !m ? n + 1 : !n ? ackermann(m - 1, 1) : ackermann(m - 1, ackermann(m, n - 1)); }
static unsigned is_odd(unsigned n);
static unsigned is_even(unsigned n) { return n ? is_odd(n - 1) : 1; }
static unsigned is_odd(unsigned n) { return n ? is_even(n - 1) : 0; }
static int nine(int a, char b, short c, unsigned d, int e, signed char f, unsigned char g, int h, int i)
{
    return a + b * 2 + c * 3 + d * 4 + e * 5 + f * 6 + g * 7 + h * 8 + i * 9;
}
static int counter(void) { static int count = 5; static int calls; calls += 2; return count++ * calls; }
static void copy(char *to, const char *from, int count)
{
    int n = (count + 3) / 4;
    switch (count % 4) {
    case 0: do { *to++ = *from++;
    case 3: *to++ = *from++;
    case 2: *to++ = *from++;
    case 1: *to++ = *from++;
        } while (--n > 0);
    }
}
static int classified(int v, int w)
{
    int found = 0;
    switch (v) {
    case -5: found = 1;
    case 100000: found += 2; break;
    case 7: switch (w) { case 7: found = 70; break; default: found = 71; case 9: found++; } break;
    case 8: { int shadow = 4; found = shadow; } break;
    case 9: case 10: case 11: found = 9; if (w) break; found = 10;
    default: found += 100;
    }
    return found;
}
static int deep(int a)
{
    int b = a + 1, c = a * 3, d = a ^ 5, e = a << 2, f = a - 7, g = a | 9, h = ~a, i = -a, j = a & 12, k = a + 99, l = a * 5, m = a - b, n = c + d, o = e ^ f;
    int again;
    for (again = 0; again < 3; again++) {
        a += b; b += c; c += d; d += e; e += f; f += g; g += h; h += i; i += j; j += k; k += l; l += m; m += n; n += o; o += a;
        if (again == 1) show(add(a, o));
    }
    return a ^ b ^ c ^ d ^ e ^ f ^ g ^ h ^ i ^ j ^ k ^ l ^ m ^ n ^ o;
}
void program(int p, unsigned q, short r, signed char t)
{
    int i, j, sum = 0;
    char text[40], *at;
    for (i = 0; ; i++) { if (i == 3) continue; if (i > 6) break; for (j = i; j--;) { if (j == 2) continue; sum += j * i; } }
    show(sum);
    i = 10; while (i --> 4) if (i & 1) continue; else sum ^= i; show(sum);
    do sum += 3; while (sum < 60); show(sum);
    show(apply(choose(p & 1), 10, 3)); show(apply(choose(0), 10, 3)); show(apply(0, 1, 1)); show((*choose(1))(4, 9)); show(table[1].f(1, 2));
    for (i = 0; table[i].name; i++) print_text(table[i].name);
    show(ackermann(2, 3)); show(is_even(10)); show(is_odd(10)); show(nine(1, 2, -3, 4, 5, -6, 7, 8, t)); show(counter() + counter()); show(counter());
    copy(text, "abcdefghijklmnopqrstuvwxyz", 26); text[26] = 0; print_text(text);
    for (i = -6; i < 13; i++) { show(classified(i, i)); show(classified(i, 0)); } show(classified(100000, 1));
    show(deep(p)); show(deep(-q));
    i = 0;
again:
    if (i < 3) { sum += i; if (i == 1) goto inside; i++; goto again; }
    for (j = 0; j < 2; j++) { sum += 10;
inside: sum += 100; i += 2; }
    show(sum); show(i);
    strcpy(text, "hello"); strcat(text, " world"); show(strlen(text)); show(strcmp(text, "hello") > 0); at = strchr(text, 'w'); show(at - text);
    show(memcmp(text, "help", 4) < 0); memset(text + 2, 'x', 3); print_text(text); show(strstr(text, "wor") - text); memmove(text + 1, text, 5); print_text(text);
    p = (r++, ++r, r); show(p); show((p = 3, p) + (q ? p : 4)); show(p && (i = 7)); show(p || (i = 9)); show(i); show(!(p > 2 && i < 9 || sum));
    { int x = 5, *px = &x, **ppx = &px; **ppx += 2; show(x); show(*px++ + 1); show(px - &x); const char *s = "xyz"; while (*s) print_byte(*s++); }
}
