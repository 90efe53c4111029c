/* Drives hcreate and hsearch, an open hash table that grows. */
#include <stdlib.h>
#include <string.h>
#include <search.h>
#include <romp801.h>

void program(unsigned seed)
{
    unsigned step;
    print_byte(hcreate(4) != 0);
    for (step = 0; step < 150; step++) {
        char name[6], *kept;
        ENTRY it, *found;
        unsigned at;
        seed = seed * 1103515245u + 12345u;
        for (at = 0; at < 3; at++)
            name[at] = 'a' + (seed >> (18 + 3 * at) & 3);
        name[3] = 0;
        it.key = name;
        it.data = 0;
        found = hsearch(it, FIND);
        print_byte(found != 0);
        if (found) {
            print_decimal((unsigned)(size_t)found->data);
            found->data = (void *)((size_t)found->data + 1);
        } else {
            kept = malloc(4);
            strcpy(kept, name);
            it.key = kept;
            it.data = (void *)(size_t)step;
            found = hsearch(it, ENTER);
            print_text(found->key);
        }
    }
    hdestroy();
}
