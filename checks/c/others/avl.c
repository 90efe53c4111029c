/* Drives tsearch, tfind, tdelete and twalk, an AVL tree. */
#include <stdlib.h>
#include <search.h>
#include <romp801.h>

static void *root;

static int compare(const void *one, const void *other)
{
    unsigned a = *(const unsigned *)one, b = *(const unsigned *)other;
    return a < b ? -1 : a > b;
}

static void shown(const void *node, VISIT which, int depth)
{
    if (which == postorder || which == leaf) {
        print_byte(**(const unsigned *const *)node);
        print_byte(depth);
    }
}

void program(unsigned seed)
{
    unsigned step;
    for (step = 0; step < 120; step++) {
        unsigned *key = malloc(sizeof *key);
        void *found;
        seed = seed * 1103515245u + 12345u;
        *key = seed >> 20 & 63;
        found = tfind(key, &root, compare);
        print_byte(found != 0);
        if (seed >> 16 & 1) {
            found = tsearch(key, &root, compare);
            print_byte(**(unsigned **)found);
            if (*(unsigned **)found != key)
                free(key);
        } else {
            unsigned *its = found ? *(unsigned **)found : 0;
            print_byte(tdelete(key, &root, compare) != 0);
            free(its);
            free(key);
        }
        if (step % 8 == 0)
            twalk(root, shown);
    }
}
