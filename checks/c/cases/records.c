/* Records of segments: far from the front, beside each other, and by address. */
#include <romp801.h>
#pragma segment 1 rw
RECORD unsigned words[1000];
RECORD unsigned char bytes[3];
RECORD short halves[5];
RECORD unsigned *where;
#pragma segment 2 rw 9
RECORD struct { unsigned char a; unsigned b[20]; } far;
RECORD unsigned last;
#pragma segment none
static unsigned *slot(unsigned n) { return n & 1 ? &far.b[n % 20] : &words[n % 1000]; }
void program(int p, unsigned q, short r, signed char t)
{
    unsigned i, sum = 0;
    for (i = 0; i < 1000; i += 37) { words[i] = i * i; *slot(i) += p; sum += words[i] + *slot(i + 1); }
    bytes[0] = q; bytes[1] = bytes[0] + 1; bytes[2]--; halves[4] = r; halves[3] = -halves[4]; far.a = t; last = sum; where = &words[999];
    *where = 12; where -= 3; where[3]++; print_word(words[999]); print_word(where == &words[996]); print_word(where - words);
    for (i = 0; i < 3; i++) print_word(bytes[i]); for (i = 0; i < 5; i++) print_word(halves[i]); print_word(far.a); print_word(last);
    for (i = 0; i < 20; i++) print_word(far.b[i]);
    words[0] = 1; where = words; words[0] = *where + 1; print_word(*where + words[0]); where[0] += *where; print_word(words[0]);
}
