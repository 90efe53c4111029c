/* A program without a frame of its own, that calls by a pointer alone what has one, and what calls itself. */
#include <romp801.h>
static int filled(int n) { int a[20], i, sum = 0; for (i = 0; i < 20; i++) a[i] = n + i; for (i = 0; i < 20; i++) sum += a[n * i % 20]; return sum; }
static int down(int n) { int a[4] = { n, 1, 2, 3 }; return n ? down(n - 1) + a[n & 3] : a[1]; }
static int (*all[])(int) = { filled, down };
void program(int p, unsigned q, short r, signed char t)
{
    print_word(all[p & 1](9));
    print_word(all[q & 1 ? 0 : 1](p));
}
