/* The programs of five examples in C: those of accounts.job, counter.job, index.job, inventory.job and queue.job, each for the
   schedule that stands there. */
#include <romp801.h>

struct item { unsigned hand, reserved, reservations, unused; struct { unsigned quantity, state; } list[30]; };
struct line { unsigned value, unused[31]; };
struct index { unsigned where[512]; struct line records[16]; };

#pragma segment 1 rw
#ifdef INVENTORY
extern struct item items[16];
#elif defined(INDEX)
extern struct index all;
#else
extern unsigned words[1024];
#endif
#pragma segment 2 rw
extern struct { unsigned taken, put, first, unused[29], list[8]; } queue;
#pragma segment none

void deposit(unsigned amount, unsigned at)
{
#if !defined(INVENTORY) && !defined(INDEX)
    words[at / 4] += amount;
}

void move(unsigned amount, unsigned from, unsigned to)
{
    unsigned *giver = &words[from / 4], has = *giver;
    words[to / 4] += amount;
    if (has < amount)
        give_up();
    *giver = has - amount;
}

void audit(void)
{
    print_byte(words[0]);
    print_byte(words[32]);
}

void count(void)
{
    print_byte(++words[0]);
}

void claim(void)
{
    words[1] = 0;
    print_byte(++words[0]);
#endif
}

#ifdef INDEX
void add(unsigned key, unsigned value)
{
    unsigned number = all.records[0].value + 1;
    if (number > 15)
        give_up();
    all.records[0].value = number;
    all.records[number].value = value;
    all.where[key] = number * 128;
}

void find(unsigned key)
{
    unsigned at = all.where[key];
    if (!at)
        give_up();
    print_byte(all.records[at / 128].value);
}

void change(unsigned key, unsigned value)
{
    unsigned at = all.where[key];
    if (!at)
        give_up();
    all.records[at / 128].value = value;
}
#endif

#ifdef INVENTORY
static const unsigned char most[16] = {8, 8, 4, 4};

static struct item *item(unsigned number)
{
    if (number > 15)
        give_up();
    return &items[number];
}

void stock(unsigned number, unsigned quantity)
{
    item(number)->hand += quantity;
}

void reserve(unsigned number, unsigned quantity)
{
    struct item *it = item(number);
    unsigned reserved, at;
    check(quantity <= most[number]);
    reserved = it->reserved;
    check(it->hand - reserved >= quantity);
    it->reserved = reserved + quantity;
    at = it->reservations;
    check(at != 30);
    it->reservations = at + 1;
    it->list[at].quantity = quantity;
    it->list[at].state = 1;
    print_byte(at + 1);
}

void settle(unsigned number, unsigned reservation, unsigned state)
{
    struct item *it = item(number);
    unsigned quantity;
    check(reservation <= it->reservations);
    check(it->list[reservation - 1].state == 1);
    it->list[reservation - 1].state = state;
    quantity = it->list[reservation - 1].quantity;
    it->reserved -= quantity;
    if (state == 2)
        it->hand -= quantity;
}

void report(void)
{
    unsigned number, sum = 0;
    for (number = 0; number < 16; number++) {
        struct item *it = &items[number];
        unsigned hand = it->hand;
        if (hand) {
            print_byte(hand);
            print_byte(it->reserved);
        }
        sum += hand;
    }
    print_byte(sum);
}
#endif

void put(unsigned value)
{
    unsigned at;
    queue.first = 0;
    at = queue.put;
    if (queue.taken - at == -8)
        give_up();
    queue.list[at % 8] = value;
    queue.put = at + 1;
}

void get(void)
{
    unsigned at;
    queue.first = 0;
    at = queue.taken;
    if (at == queue.put)
        give_up();
    print_byte(queue.list[at % 8]);
    queue.taken = at + 1;
}
