/* A bank: sixteen accounts of segment 1, each of 256 bytes, a line of pages of 4,096. */
#include <romp801.h>

struct account {
    unsigned balance, moves;
    char owner[16];
    unsigned char unused[232];
};

#pragma segment 1 rw
extern struct account accounts[16];
#pragma segment none

static struct account *account(unsigned number)
{
    check(number < 16);
    return &accounts[number];
}

void deposit(unsigned number, unsigned amount)
{
    account(number)->balance += amount;
}

void move(unsigned from, unsigned to, unsigned amount)
{
    struct account *giver = account(from), *taker = account(to);
    check(giver->balance >= amount);
    giver->balance -= amount;
    giver->moves++;
    taker->balance += amount;
    print_decimal(giver->balance);
}

void audit(void)
{
    unsigned sum = 0, number;
    for (number = 0; number < 16; number++)
        sum += accounts[number].balance;
    print_decimal(sum);
}
