/* Drives the macros of a red-black tree. */
#include <stdlib.h>
#include <romp801.h>
#define __unused
#include TREE

struct node { RB_ENTRY(node) links; unsigned key, value; };
RB_HEAD(tree, node);

static int compare(struct node *one, struct node *other)
{
    return one->key < other->key ? -1 : one->key > other->key;
}

#pragma segment 1 rw
RECORD struct tree root;
#pragma segment none
RB_PROTOTYPE(tree, node, links, compare)
RB_GENERATE(tree, node, links, compare)

void program(unsigned seed)
{
    unsigned step;
    struct node *it;
    for (step = 0; step < 120; step++) {
        struct node wanted, *found;
        seed = seed * 1103515245u + 12345u;
        wanted.key = seed >> 20 & 63;
        found = RB_FIND(tree, &root, &wanted);
        print_byte(found ? found->value : 255);
        if (!found) {
            found = malloc(sizeof *found);
            found->key = wanted.key;
            found->value = step;
            print_byte(RB_INSERT(tree, &root, found) == 0);
        } else if (seed >> 16 & 1) {
            RB_REMOVE(tree, &root, found);
            free(found);
        }
        if (step % 10 == 0)
            RB_FOREACH(it, tree, &root) {
                print_byte(it->key);
                print_byte(RB_COLOR(it, links));
            }
    }
}
