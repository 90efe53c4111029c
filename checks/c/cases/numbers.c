/* Conversions, promotions, shifts, divisions and comparisons of all widths and signs. */
#include <romp801.h>
#include <stdbool.h>
#include <stdint.h>
#include <limits.h>
static int8_t s8; static uint8_t u8; static int16_t s16; static uint16_t u16; static int32_t s32; static uint32_t u32; static bool b;
static char plain;
static unsigned taken;
static void show(int v) { taken = (taken << 5 | taken >> 27) + v; }
static void all(void) { show(s8); show(u8); show(s16); show(u16); show(s32); show(u32); show(b); show(plain); }
static int divide(int a, int c) { return a / c * 1000 + a % c; }
static unsigned divide_u(unsigned a, unsigned c) { return a / c * 1000 + a % c; }
void program(int p, unsigned q, short r, signed char t)
{
    int values[] = { 0, 1, -1, 127, 128, -128, -129, 255, 256, 32767, 32768, -32768, 65535, 65536, INT_MAX, INT_MIN, 305419896 };
    unsigned i, j;
    for (i = 0; i < sizeof values / sizeof *values; i++) {
        int v = values[i];
        s8 = v; u8 = v; s16 = v; u16 = v; s32 = v; u32 = v; b = v; plain = v;
        all();
        s8 += 200; u8 -= 3; s16 *= 3; u16 <<= 3; s32 >>= 2; u32 /= 3; b ^= 1; plain++;
        all();
        show(s8 < u32); show(s8 < u8); show((unsigned)s16 > u16); show(-1 < 1u); show(s8 >> 1); show(u8 << 24); show(~u8); show(-u16); show(!s16);
        show(v >> 31); show((unsigned)v >> 31); show(v / 8); show(v % 8); show(v / -8); show((unsigned)v / 16); show((unsigned)v % 16); show(v * 7);
        show(v * 1000003); show(v * -5); show(v / 2); show(v % 2); show((short)v / 4); show((unsigned char)v % 32);
        for (j = 0; j < sizeof values / sizeof *values; j++) {
            int w = values[j];
            show((v < w) | (v <= w) << 1 | (v == w) << 2 | ((unsigned)v < (unsigned)w) << 3 | ((unsigned)v >= (unsigned)w) << 4);
            if (w && !(w == -1 && v == INT_MIN) && j % 3 == i % 3) {
                show(divide(v, w));
                show(divide_u(v, w));
            }
        }
        print_word(taken);
    }
    show(p); show(q); show(r); show(t);
    for (i = 0; i < 32; i++) {
        show(-305419896 >> i); show(0x12345678 << i); show(0x87654321u >> i);
    }
    show(sizeof(long) + sizeof(char *) * 10 + sizeof "four" * 100 + 'a' + '\n' + '\x41' + '\101');
    print_word(taken);
}
