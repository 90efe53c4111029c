/* The three calls of a program on a machine of 32 bits, without any library: what is printed goes to standard output as
   the program commits; giving up ends with 8. HOST_ENTRY is a function of
   the file HOST_SOURCE, and HOST_VALUES what it is given. */
static unsigned char host_printed[1 << 16];
static unsigned host_count;

static int host_call(int number, int one, const void *two, int three)
{
#ifdef __powerpc__
    register int found __asm__("r3") = one;
    register int call __asm__("r0") = number;
    register const void *second __asm__("r4") = two;
    register int third __asm__("r5") = three;
    __asm__ volatile("sc" : "+r"(found), "+r"(call) : "r"(second), "r"(third) : "memory", "cr0", "ctr");
    return found;
#else
    int found;
    __asm__ volatile("int $0x80" : "=a"(found) : "a"(number), "b"(one), "c"(two), "d"(three) : "memory");
    return found;
#endif
}

void *memcpy(void *to, const void *from, unsigned size)
{
    char *a = to;
    const char *b = from;
    while (size--)
        *a++ = *b++;
    return to;
}

void *memset(void *to, int value, unsigned size)
{
    char *a = to;
    while (size--)
        *a++ = (char)value;
    return to;
}

void print_byte(unsigned byte)
{
    if (host_count < sizeof host_printed)
        host_printed[host_count++] = (unsigned char)byte;
}

void commit(void)
{
    unsigned at = 0;
    while (at < host_count)
        at += (unsigned)host_call(4, 1, host_printed + at, (int)(host_count - at));
    for (;;)
        host_call(1, 0, 0, 0);
}

void give_up(void)
{
    for (;;)
        host_call(1, 8, 0, 0);
}

#include HOST_SOURCE

#ifndef __powerpc__
__attribute__((force_align_arg_pointer))
#endif
void _start(void)
{
    HOST_ENTRY(HOST_VALUES);
    commit();
}
