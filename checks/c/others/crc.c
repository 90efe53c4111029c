/* Drives a CRC by a table. */
#include <romp801.h>
#include "check.h"
#pragma segment 1 rw
RECORD uint8_t bytes[256];
#pragma segment none

void program(unsigned seed)
{
    unsigned step, at;
    uint32_t crc = 0;
    for (step = 0; step < 20; step++) {
        for (at = 0; at < sizeof bytes; at++) {
            seed = seed * 1103515245u + 12345u;
            bytes[at] = seed >> 24;
        }
        crc = lzma_crc32(bytes, step * 13, crc);
        print_word(crc);
    }
}
