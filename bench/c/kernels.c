/* Ten kernels for the table of docs/SPEED.md: each ends with a word of its outcome, printed. */
void print_byte(unsigned byte);
void commit(void);
void give_up(void);

struct account { unsigned balance; unsigned moves; };
struct node { unsigned key; unsigned value; struct node *next; };
struct leaf { unsigned short count; unsigned short leaf; unsigned keys[7]; unsigned below[8]; };

#pragma segment 1 rw
extern unsigned array[256];
extern unsigned table[128];
extern struct node nodes[64];
extern struct account accounts[32];
extern struct leaf tree[16];
extern unsigned queue[16];
extern unsigned taken;
extern unsigned put;
extern unsigned char text[64];
extern unsigned char other[64];

static void print(unsigned n)
{
    print_byte(n >> 24);
    print_byte(n >> 16);
    print_byte(n >> 8);
    print_byte(n);
}

void sum(void)
{
    unsigned i;
    unsigned all = 0;
    for (i = 0; i < 256; i++)
        array[i] = i * 7 + 3;
    for (i = 0; i < 256; i++)
        all += array[i];
    print(all);
}

void search(unsigned from)
{
    unsigned i;
    unsigned found = 0;
    unsigned key;
    for (i = 0; i < 256; i++)
        array[i] = i * 3;
    for (key = from; key < from + 200; key += 7) {
        unsigned low = 0;
        unsigned high = 256;
        while (low < high) {
            unsigned middle = (low + high) / 2;
            if (array[middle] < key)
                low = middle + 1;
            else
                high = middle;
        }
        if (low < 256 && array[low] == key)
            found++;
    }
    print(found);
}

void insert(unsigned seed)
{
    unsigned i;
    unsigned tries = 0;
    for (i = 0; i < 128; i++)
        table[i] = 0;
    for (i = 0; i < 90; i++) {
        unsigned key = (seed + i * 40503) ^ (i << 7);
        unsigned at = (key ^ key >> 5 ^ key >> 11) & 127;
        while (table[at] != 0 && table[at] != key + 1) {
            at = (at + 1) & 127;
            tries++;
        }
        table[at] = key + 1;
    }
    print(tries);
}

void walk(void)
{
    unsigned i;
    unsigned all = 0;
    struct node *at;
    for (i = 0; i < 64; i++) {
        nodes[i].key = i;
        nodes[i].value = i * i;
        nodes[i].next = i == 63 ? (struct node *)0 : &nodes[i + 1];
    }
    for (i = 0; i < 8; i++)
        for (at = nodes; at != (struct node *)0; at = at->next)
            if ((at->key & 1) == 0)
                all += at->value;
    print(all);
}

void sort(unsigned seed)
{
    unsigned i;
    unsigned j;
    for (i = 0; i < 64; i++) {
        seed = seed * 5 + 12345;
        array[i] = seed >> 3;
    }
    for (i = 1; i < 64; i++) {
        unsigned it = array[i];
        for (j = i; j > 0 && array[j - 1] > it; j--)
            array[j] = array[j - 1];
        array[j] = it;
    }
    print(array[0] ^ array[31] ^ array[63]);
}

static int compare(unsigned char *one, unsigned char *two)
{
    while (*one != 0 && *one == *two) {
        one++;
        two++;
    }
    return *one - *two;
}

void strings(void)
{
    unsigned i;
    unsigned less = 0;
    for (i = 0; i < 63; i++) {
        text[i] = 'a' + (i & 15);
        other[i] = text[i];
    }
    text[63] = 0;
    other[63] = 0;
    for (i = 0; i < 40; i++) {
        other[i + 20] ^= 1;
        if (compare(text, other) < 0)
            less++;
        other[i + 20] ^= 1;
    }
    print(less);
}

void checksum(void)
{
    unsigned i;
    unsigned j;
    unsigned crc = 0xFFFFFFFF;
    for (i = 0; i < 64; i++)
        text[i] = i * 5;
    for (i = 0; i < 64; i++) {
        crc ^= text[i];
        for (j = 0; j < 8; j++)
            crc = crc & 1 ? crc >> 1 ^ 0xEDB88320 : crc >> 1;
    }
    print(~crc);
}

void queues(void)
{
    unsigned i;
    unsigned all = 0;
    for (i = 0; i < 300; i++) {
        if (put - taken < 8 && i % 3 != 2) {
            queue[put & 15] = i;
            put++;
        } else if (taken != put) {
            all += queue[taken & 15];
            taken++;
        }
    }
    print(all);
}

static void move(unsigned from, unsigned to, unsigned amount)
{
    struct account *giver = &accounts[from];
    struct account *taker = &accounts[to];
    if (from > 31 || to > 31)
        give_up();
    if (giver->balance < amount)
        return;
    giver->balance -= amount;
    giver->moves++;
    taker->balance += amount;
    taker->moves++;
}

void bank(void)
{
    unsigned i;
    unsigned all = 0;
    for (i = 0; i < 32; i++)
        accounts[i].balance = 100;
    for (i = 0; i < 200; i++)
        move(i & 31, (i * 5 + 3) & 31, i & 15);
    for (i = 0; i < 32; i++)
        all += accounts[i].balance;
    print(all + accounts[7].moves);
}

static unsigned look(unsigned root, unsigned key)
{
    struct leaf *at = &tree[root];
    unsigned i;
    for (;;) {
        for (i = 0; i < at->count && at->keys[i] < key; i++)
            ;
        if (at->leaf)
            return i < at->count && at->keys[i] == key ? at->below[i] : 0;
        at = &tree[at->below[i]];
    }
}

void lookup(void)
{
    unsigned i;
    unsigned j;
    unsigned all = 0;
    for (i = 0; i < 8; i++) {
        struct leaf *it = &tree[i + 1];
        it->count = 7;
        it->leaf = 1;
        for (j = 0; j < 7; j++) {
            it->keys[j] = i * 70 + j * 10;
            it->below[j] = i + j + 1;
        }
        tree[0].below[i] = i + 1;
        if (i < 7)
            tree[0].keys[i] = i * 70 + 60;
    }
    tree[0].count = 7;
    tree[0].leaf = 0;
    for (i = 0; i < 560; i += 5)
        all += look(0, i);
    print(all);
}
