/* A resident program that makes any system call for Java, and says by its argument which table of functions it tells. */
#include "calls.h"

#include <nested/resident.h>

/* hands the table to the host, and is ready (guest/system/resident.S) */
void nested_resident(const struct nested_function *table);

enum { MANY = 20000 };

static char room[65536];
static char endless_name[1024];
static struct nested_function large[MANY + 1];

static char *get_room(void) {
    return room;
}

static const struct nested_function table[] = {{"call", syscall3}, {"room", get_room}, NESTED_END};
static const struct nested_function stray[] = {{(const char *)4, get_room}, NESTED_END};
static const struct nested_function endless[] = {{endless_name, get_room}, NESTED_END};

static const struct nested_function *many(void) {
    for (int i = 0; i < MANY; i++) large[i] = table[1];
    return large;
}

static const struct nested_function *choose(int kind) {
    for (int i = 0; i < (int)sizeof endless_name; i++) endless_name[i] = 'n';
    switch (kind) {
        case 'm': return many();
        case 's': return stray;
        case 'e': return endless;
        case 'n': return (const struct nested_function *)4;
        default: return table;
    }
}

int main(int argc, char **argv) {
    nested_resident(choose(argc > 1 ? argv[1][0] : 0));
    return 1; /* no host that calls functions */
}
