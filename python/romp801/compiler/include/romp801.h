/* What a program in C asks of romp801 (docs/GUIDE.md, "In C"). Elsewhere the calls are those of the file that
   `tools/compile --host` prints. */
#ifndef ROMP801_H
#define ROMP801_H

/* ends the program; what it wrote is kept */
void commit(void);
/* ends the program; what it wrote is forgotten */
void give_up(void);
/* prints the lowest byte */
void print_byte(unsigned byte);

/* gives up where a condition doesn't hold */
#define check(condition) ((condition) ? (void)0 : give_up())

/* prints so many bytes */
static inline void print_bytes(const void *bytes, unsigned count)
{
    const unsigned char *at = (const unsigned char *)bytes;
    while (count--)
        print_byte(*at++);
}

/* prints the bytes of a text */
static inline void print_text(const char *text)
{
    while (*text)
        print_byte((unsigned char)*text++);
}

/* prints a number in decimal */
static inline void print_decimal(unsigned number)
{
    static const unsigned powers[9] = {1000000000u, 100000000u, 10000000u, 1000000u, 100000u, 10000u, 1000u, 100u, 10u};
    unsigned at = 0;
    while (at < 9 && number < powers[at])
        at++;
    for (; at < 9; at++) {
        unsigned digit = '0';
        while (number >= powers[at]) {
            number -= powers[at];
            digit++;
        }
        print_byte(digit);
    }
    print_byte('0' + number);
}

/* prints a number of four bytes, the highest first */
static inline void print_word(unsigned number)
{
    print_byte(number >> 24);
    print_byte(number >> 16);
    print_byte(number >> 8);
    print_byte(number);
}

#endif
