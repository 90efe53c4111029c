/* What programs by csmith take from its header, for 32 bits and less, in our own words: the same on both sides. Arithmetic is
   done where C tells its outcome, and else the first value is the outcome. A checksum of all globals is printed at the end. */
#include <stdint.h>

void print_byte(unsigned);

static uint32_t checksum_one = 0xFFFFFFFFu, checksum_two;
static int print_hash_value;

static void checksum_take(uint32_t value)
{
    checksum_one = (checksum_one ^ value) * 31u + 7u;
    checksum_two = (checksum_two << 7 | checksum_two >> 25) + value;
}

static void checksum_print(uint32_t value)
{
    print_byte(value >> 24);
    print_byte(value >> 16);
    print_byte(value >> 8);
    print_byte(value);
}

#define transparent_crc(value, name, flag) checksum_take((uint32_t)(value))
#define crc32_gentab() ((void)0)
#define crc32_context 0u
#define platform_main_begin() ((void)0)
#define platform_main_end(value, flag) (checksum_print(checksum_one), checksum_print(checksum_two))
#define printf(...) ((void)0)

static int8_t safe_unary_minus_func_int8_t_s(int8_t a) { return a == -128 ? a : -a; }
static int8_t safe_add_func_int8_t_s_s(int8_t a, int8_t b) { return (int8_t)((uint32_t)a + (uint32_t)b); }
static int8_t safe_sub_func_int8_t_s_s(int8_t a, int8_t b) { return (int8_t)((uint32_t)a - (uint32_t)b); }
static int8_t safe_mul_func_int8_t_s_s(int8_t a, int8_t b) { return (int8_t)((uint32_t)a * (uint32_t)b); }
static int8_t safe_mod_func_int8_t_s_s(int8_t a, int8_t b) { return b == 0 || a == -128 && b == -1 ? a : a % b; }
static int8_t safe_div_func_int8_t_s_s(int8_t a, int8_t b) { return b == 0 || a == -128 && b == -1 ? a : a / b; }
static int8_t safe_lshift_func_int8_t_s_s(int8_t a, int b) { return a < 0 || b < 0 || b >= 32 || a > (127 >> b) ? a : a << b; }
static int8_t safe_rshift_func_int8_t_s_s(int8_t a, int b) { return a < 0 || b < 0 || b >= 32 ? a : a >> b; }
static int8_t safe_lshift_func_int8_t_s_u(int8_t a, unsigned b) { return a < 0 || b >= 32 || a > (127 >> b) ? a : a << b; }
static int8_t safe_rshift_func_int8_t_s_u(int8_t a, unsigned b) { return a < 0 || b >= 32 ? a : a >> b; }

static uint8_t safe_unary_minus_func_uint8_t_u(uint8_t a) { return -a; }
static uint8_t safe_add_func_uint8_t_u_u(uint8_t a, uint8_t b) { return (uint8_t)((uint32_t)a + (uint32_t)b); }
static uint8_t safe_sub_func_uint8_t_u_u(uint8_t a, uint8_t b) { return (uint8_t)((uint32_t)a - (uint32_t)b); }
static uint8_t safe_mul_func_uint8_t_u_u(uint8_t a, uint8_t b) { return (uint8_t)((uint32_t)a * (uint32_t)b); }
static uint8_t safe_mod_func_uint8_t_u_u(uint8_t a, uint8_t b) { return b == 0 ? a : a % b; }
static uint8_t safe_div_func_uint8_t_u_u(uint8_t a, uint8_t b) { return b == 0 ? a : a / b; }
static uint8_t safe_lshift_func_uint8_t_u_s(uint8_t a, int b) { return b < 0 || b >= 32 || a > (255 >> b) ? a : a << b; }
static uint8_t safe_rshift_func_uint8_t_u_s(uint8_t a, int b) { return b < 0 || b >= 32 ? a : a >> b; }
static uint8_t safe_lshift_func_uint8_t_u_u(uint8_t a, unsigned b) { return b >= 32 || a > (255 >> b) ? a : a << b; }
static uint8_t safe_rshift_func_uint8_t_u_u(uint8_t a, unsigned b) { return b >= 32 ? a : a >> b; }

static int16_t safe_unary_minus_func_int16_t_s(int16_t a) { return a == -32768 ? a : -a; }
static int16_t safe_add_func_int16_t_s_s(int16_t a, int16_t b) { return (int16_t)((uint32_t)a + (uint32_t)b); }
static int16_t safe_sub_func_int16_t_s_s(int16_t a, int16_t b) { return (int16_t)((uint32_t)a - (uint32_t)b); }
static int16_t safe_mul_func_int16_t_s_s(int16_t a, int16_t b) { return (int16_t)((uint32_t)a * (uint32_t)b); }
static int16_t safe_mod_func_int16_t_s_s(int16_t a, int16_t b) { return b == 0 || a == -32768 && b == -1 ? a : a % b; }
static int16_t safe_div_func_int16_t_s_s(int16_t a, int16_t b) { return b == 0 || a == -32768 && b == -1 ? a : a / b; }
static int16_t safe_lshift_func_int16_t_s_s(int16_t a, int b) { return a < 0 || b < 0 || b >= 32 || a > (32767 >> b) ? a : a << b; }
static int16_t safe_rshift_func_int16_t_s_s(int16_t a, int b) { return a < 0 || b < 0 || b >= 32 ? a : a >> b; }
static int16_t safe_lshift_func_int16_t_s_u(int16_t a, unsigned b) { return a < 0 || b >= 32 || a > (32767 >> b) ? a : a << b; }
static int16_t safe_rshift_func_int16_t_s_u(int16_t a, unsigned b) { return a < 0 || b >= 32 ? a : a >> b; }

static uint16_t safe_unary_minus_func_uint16_t_u(uint16_t a) { return -a; }
static uint16_t safe_add_func_uint16_t_u_u(uint16_t a, uint16_t b) { return (uint16_t)((uint32_t)a + (uint32_t)b); }
static uint16_t safe_sub_func_uint16_t_u_u(uint16_t a, uint16_t b) { return (uint16_t)((uint32_t)a - (uint32_t)b); }
static uint16_t safe_mul_func_uint16_t_u_u(uint16_t a, uint16_t b) { return (uint16_t)((uint32_t)a * (uint32_t)b); }
static uint16_t safe_mod_func_uint16_t_u_u(uint16_t a, uint16_t b) { return b == 0 ? a : a % b; }
static uint16_t safe_div_func_uint16_t_u_u(uint16_t a, uint16_t b) { return b == 0 ? a : a / b; }
static uint16_t safe_lshift_func_uint16_t_u_s(uint16_t a, int b) { return b < 0 || b >= 32 || a > (65535 >> b) ? a : a << b; }
static uint16_t safe_rshift_func_uint16_t_u_s(uint16_t a, int b) { return b < 0 || b >= 32 ? a : a >> b; }
static uint16_t safe_lshift_func_uint16_t_u_u(uint16_t a, unsigned b) { return b >= 32 || a > (65535 >> b) ? a : a << b; }
static uint16_t safe_rshift_func_uint16_t_u_u(uint16_t a, unsigned b) { return b >= 32 ? a : a >> b; }

static int32_t safe_unary_minus_func_int32_t_s(int32_t a) { return a == (-2147483647 - 1) ? a : -a; }
static int32_t safe_add_func_int32_t_s_s(int32_t a, int32_t b) { return (int32_t)((uint32_t)a + (uint32_t)b); }
static int32_t safe_sub_func_int32_t_s_s(int32_t a, int32_t b) { return (int32_t)((uint32_t)a - (uint32_t)b); }
static int32_t safe_mul_func_int32_t_s_s(int32_t a, int32_t b) { return (int32_t)((uint32_t)a * (uint32_t)b); }
static int32_t safe_mod_func_int32_t_s_s(int32_t a, int32_t b) { return b == 0 || a == (-2147483647 - 1) && b == -1 ? a : a % b; }
static int32_t safe_div_func_int32_t_s_s(int32_t a, int32_t b) { return b == 0 || a == (-2147483647 - 1) && b == -1 ? a : a / b; }
static int32_t safe_lshift_func_int32_t_s_s(int32_t a, int b) { return a < 0 || b < 0 || b >= 32 || a > (2147483647 >> b) ? a : a << b; }
static int32_t safe_rshift_func_int32_t_s_s(int32_t a, int b) { return a < 0 || b < 0 || b >= 32 ? a : a >> b; }
static int32_t safe_lshift_func_int32_t_s_u(int32_t a, unsigned b) { return a < 0 || b >= 32 || a > (2147483647 >> b) ? a : a << b; }
static int32_t safe_rshift_func_int32_t_s_u(int32_t a, unsigned b) { return a < 0 || b >= 32 ? a : a >> b; }

static uint32_t safe_unary_minus_func_uint32_t_u(uint32_t a) { return -a; }
static uint32_t safe_add_func_uint32_t_u_u(uint32_t a, uint32_t b) { return (uint32_t)((uint32_t)a + (uint32_t)b); }
static uint32_t safe_sub_func_uint32_t_u_u(uint32_t a, uint32_t b) { return (uint32_t)((uint32_t)a - (uint32_t)b); }
static uint32_t safe_mul_func_uint32_t_u_u(uint32_t a, uint32_t b) { return (uint32_t)((uint32_t)a * (uint32_t)b); }
static uint32_t safe_mod_func_uint32_t_u_u(uint32_t a, uint32_t b) { return b == 0 ? a : a % b; }
static uint32_t safe_div_func_uint32_t_u_u(uint32_t a, uint32_t b) { return b == 0 ? a : a / b; }
static uint32_t safe_lshift_func_uint32_t_u_s(uint32_t a, int b) { return b < 0 || b >= 32 || a > (4294967295u >> b) ? a : a << b; }
static uint32_t safe_rshift_func_uint32_t_u_s(uint32_t a, int b) { return b < 0 || b >= 32 ? a : a >> b; }
static uint32_t safe_lshift_func_uint32_t_u_u(uint32_t a, unsigned b) { return b >= 32 || a > (4294967295u >> b) ? a : a << b; }
static uint32_t safe_rshift_func_uint32_t_u_u(uint32_t a, unsigned b) { return b >= 32 ? a : a >> b; }
