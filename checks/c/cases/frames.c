/* An index of the function's own array that turns out to be 0 only behind a branch that is always taken. */
#include <romp801.h>
static unsigned zero(unsigned v) { return v & 0; }
void program(unsigned p, unsigned q, short r, signed char t)
{
    unsigned list[4] = {1, 2, 3, 4}, at = 0, i, sum = 0;
    unsigned which;
    if (sizeof(int) == 4)
        which = zero(p);
    else
        which = q;
    list[which] += p;
    for (i = 0; i < 3; i++) {
        at = i * 0;
        list[at] += i;
        sum += list[at] + list[i];
    }
    print_word(list[which]);
    print_word(sum);
}
