/* Blocks of an array in segment 1, the first that is free and large enough. */
#include <stdlib.h>
#pragma segment 1 rw
RECORD struct block { unsigned size, used; } storage[1000];
#pragma segment none

void *malloc(size_t size)
{
    struct block *at = storage, *end = storage + sizeof storage / sizeof *storage;
    unsigned wanted = (size + 7) / 8;
    if (!at->size)
        at->size = (unsigned)(end - at) - 1;
    for (; at < end; at += at->size + 1)
        if (!at->used && at->size >= wanted) {
            if (at->size > wanted) {
                at[wanted + 1].size = at->size - wanted - 1;
                at[wanted + 1].used = 0;
            }
            at->size = wanted;
            at->used = 1;
            return at + 1;
        }
    return 0;
}

void *calloc(size_t count, size_t size)
{
    unsigned char *found = malloc(count * size);
    size_t at;
    for (at = 0; found && at < count * size; at++)
        found[at] = 0;
    return found;
}

void free(void *it)
{
    if (it)
        ((struct block *)it - 1)->used = 0;
}
