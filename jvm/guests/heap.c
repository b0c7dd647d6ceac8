/* A heap: blocks that were given back are taken again where they are large enough */
#include "heap.h"

#include "calls.h"

struct block {
    unsigned size;
    struct block *next;
};

static struct block *given_back;

void *malloc(unsigned size) {
    size = (size + 7) & ~7u;
    for (struct block **at = &given_back; *at; at = &(*at)->next) {
        if ((*at)->size >= size) {
            struct block *found = *at;
            *at = found->next;
            return found + 1;
        }
    }
    int start = syscall3(SBRK, (int)(size + sizeof(struct block)), 0, 0);
    if (start < 0) return 0;
    struct block *made = (struct block *)start;
    made->size = size;
    return made + 1;
}

void free(void *place) {
    struct block *block = (struct block *)place - 1;
    block->next = given_back;
    given_back = block;
}
