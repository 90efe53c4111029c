/* Drives strstr, a search in two ways. */
#include <romp801.h>
char *strstr(const char *text, const char *part);
#pragma segment 1 rw
RECORD char text[600];
#pragma segment none

void program(unsigned seed)
{
    unsigned step, at;
    for (step = 0; step < 60; step++) {
        char part[24], *found;
        unsigned size = 1 + step % 20;
        for (at = 0; at < 500; at++) {
            seed = seed * 1103515245u + 12345u;
            text[at] = 'a' + (seed >> 28 & (step & 1 ? 1 : 3)) / 2;
        }
        for (at = 0; at < size; at++)
            part[at] = text[(seed >> 16) % 470 + at];
        part[size] = 0;
        if (step % 5 == 4)
            part[size - 1] ^= 1;
        found = strstr(text, part);
        print_decimal(found ? (unsigned)(found - text) : 9999);
        print_byte(' ');
    }
}
