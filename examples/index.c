/* An index of moving records: a B-tree whose nodes are lines of 256 bytes of a fine segment. A record is a key and a value; the
   records of a leaf move as others come and go, from leaf to leaf too, and programs find them by the key alone.

   Line 0 has the root, the first free node and how many nodes were ever used; each other line is a node. A leaf has its records
   by their keys and the number of the next leaf; another node has one child more than keys, and a child's keys are at least the
   key in front of it. All leaves are equally deep, and each node but the root has at least (ROOM - 1) / 2 keys. */
#include <romp801.h>

#ifndef ROOM
#define ROOM 30                         /* keys of a node */
#endif
#define NODES 127
#define DEEP 16                         /* nodes from the root to a leaf, at most */

struct node {
    unsigned char leaf, count;
    unsigned short next;                /* the leaf behind this one, or the free node behind this one; 0 for none */
    unsigned keys[ROOM];
    unsigned below[ROOM + 1];           /* of a leaf the values, else the numbers of the children */
};

#pragma segment 1 rw
extern struct {
    unsigned root, free, used, unused[61];
} head;
extern union {
    struct node node;
    unsigned char line[256];
} lines[NODES + 1];
#pragma segment none

static struct node *node(unsigned number)
{
    return &lines[number - 1].node;
}

/* Where a key is in a node, or would be: how many keys are below it, or of another node than a leaf not above it. */
static unsigned place_of(const struct node *it, unsigned key)
{
    unsigned low = 0, high = it->count;
    while (low < high) {
        unsigned middle = (low + high) / 2;
        if (it->keys[middle] < key || it->keys[middle] == key && !it->leaf)
            low = middle + 1;
        else
            high = middle;
    }
    return low;
}

/* The way from the root to the leaf of a key: the nodes, and which child of each is next. */
static unsigned path[DEEP], turn[DEEP];

static unsigned descend(unsigned key)
{
    unsigned number = head.root, depth = 0;
    check(number);
    while (!node(number)->leaf) {
        path[depth] = number;
        turn[depth] = place_of(node(number), key);
        number = node(number)->below[turn[depth]];
        depth++;
    }
    path[depth] = number;
    return depth;
}

static unsigned take_node(unsigned leaf)
{
    unsigned number = head.free;
    if (number)
        head.free = node(number)->next;
    else {
        check(head.used < NODES);
        number = ++head.used;
    }
    node(number)->leaf = leaf;
    node(number)->count = 0;
    node(number)->next = 0;
    return number;
}

static void give_node(unsigned number)
{
    node(number)->next = head.free;
    node(number)->leaf = 2;
    head.free = number;
}

/* Puts a key at a place of a node that has room: of a leaf with its value, else with the child behind it. */
static void put(struct node *it, unsigned place, unsigned key, unsigned below)
{
    unsigned at;
    for (at = it->count; at > place; at--) {
        it->keys[at] = it->keys[at - 1];
        it->below[at + !it->leaf] = it->below[at - 1 + !it->leaf];
    }
    it->keys[place] = key;
    it->below[place + !it->leaf] = below;
    it->count++;
}

static void drop(struct node *it, unsigned place)
{
    unsigned at;
    it->count--;
    for (at = place; at < it->count; at++) {
        it->keys[at] = it->keys[at + 1];
        it->below[at + !it->leaf] = it->below[at + 1 + !it->leaf];
    }
}

/* Splits the full node at this depth; tells the key between its halves and the number of the second. */
static unsigned split(unsigned depth, unsigned *key)
{
    struct node *it = node(path[depth]);
    unsigned number = take_node(it->leaf), half = ROOM / 2, from = half + !it->leaf, at;
    struct node *more = node(number);
    *key = it->keys[half];
    for (at = from; at < ROOM; at++) {
        more->keys[at - from] = it->keys[at];
        more->below[at - from] = it->below[at];
    }
    if (!it->leaf)
        more->below[ROOM - from] = it->below[ROOM];
    more->count = ROOM - from;
    it->count = half;
    if (it->leaf) {
        more->next = it->next;
        it->next = number;
    }
    return number;
}

/* Puts a record, or gives up where its key has one. */
void insert(unsigned key, unsigned value)
{
    unsigned depth, place, below = value, between;
    if (!head.root)
        head.root = take_node(1);
    depth = descend(key);
    place = place_of(node(path[depth]), key);
    check(place == node(path[depth])->count || node(path[depth])->keys[place] != key);
    for (;;) {
        struct node *it = node(path[depth]);
        unsigned number;
        if (it->count < ROOM) {
            put(it, place, key, below);
            return;
        }
        number = split(depth, &between);
        if (place > it->count)
            put(node(number), place - it->count - !it->leaf, key, below);
        else
            put(it, place, key, below);
        key = between;
        below = number;
        if (!depth)
            break;
        place = turn[--depth];
    }
    head.root = take_node(0);
    node(head.root)->below[0] = path[0];
    put(node(head.root), 0, key, below);
}

/* Moves a record, or a child, from a neighbor into the node at this depth, or joins the two; says whether they are one now. */
static unsigned fill(unsigned depth)
{
    struct node *above = node(path[depth - 1]);
    unsigned which = turn[depth - 1], first = which ? which - 1 : which, at;
    struct node *one = node(above->below[first]), *other = node(above->below[first + 1]);
    if (which && one->count > ROOM / 2) {
        for (at = other->count; at > 0; at--) {
            other->keys[at] = other->keys[at - 1];
            other->below[at + !other->leaf] = other->below[at - 1 + !other->leaf];
        }
        if (other->leaf)
            other->keys[0] = one->keys[one->count - 1];
        else {
            other->below[1] = other->below[0];
            other->keys[0] = above->keys[first];
        }
        other->below[0] = one->below[one->count - other->leaf];
        above->keys[first] = one->keys[one->count - 1];
        other->count++;
        one->count--;
        return 0;
    }
    if (!which && other->count > ROOM / 2) {
        one->keys[one->count] = one->leaf ? other->keys[0] : above->keys[first];
        one->below[one->count + !one->leaf] = other->below[0];
        one->count++;
        above->keys[first] = other->keys[one->leaf];
        if (!other->leaf) {
            above->keys[first] = other->keys[0];
            other->below[0] = other->below[1];
        }
        drop(other, 0);
        return 0;
    }
    if (!one->leaf) {
        one->keys[one->count] = above->keys[first];
        one->count++;
    }
    for (at = 0; at < other->count; at++) {
        one->keys[one->count + at] = other->keys[at];
        one->below[one->count + at] = other->below[at];
    }
    if (!one->leaf)
        one->below[one->count + at] = other->below[at];
    one->count += other->count;
    if (one->leaf)
        one->next = other->next;
    give_node(above->below[first + 1]);
    drop(above, first);
    return 1;
}

/* Takes a record away, or gives up where there is none of this key. */
void remove(unsigned key)
{
    unsigned depth = descend(key), place = place_of(node(path[depth]), key);
    check(place < node(path[depth])->count && node(path[depth])->keys[place] == key);
    drop(node(path[depth]), place);
    while (depth && node(path[depth])->count < ROOM / 2) {
        if (!fill(depth))
            return;
        depth--;
    }
    if (!depth && !node(path[0])->count) {
        head.root = node(path[0])->leaf ? 0 : node(path[0])->below[0];
        give_node(path[0]);
    }
}

/* Prints the value of a key, or gives up. */
void find(unsigned key)
{
    const struct node *leaf = node(path[descend(key)]);
    unsigned place = place_of(leaf, key);
    check(place < leaf->count && leaf->keys[place] == key);
    print_word(leaf->below[place]);
}

/* Prints the keys from one up to another, at most a thousand. */
void range(unsigned from, unsigned to)
{
    unsigned number, place, left = 1000;
    if (!head.root)
        return;
    number = path[descend(from)];
    place = place_of(node(number), from);
    while (number) {
        for (; place < node(number)->count; place++) {
            if (node(number)->keys[place] > to || !left--)
                return;
            print_word(node(number)->keys[place]);
        }
        number = node(number)->next;
        place = 0;
    }
}
