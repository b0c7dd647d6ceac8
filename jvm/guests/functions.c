/* Functions for a host that calls them: the program stays, and tells them by a table (docs/HOST.md). */
#include "calls.h"
#include "heap.h"

#include <nested/resident.h>

/* hands the table to the host, and is ready (guest/system/resident.S) */
void nested_resident(const struct nested_function *table);

static int count;

static int add(int a, int b) {
    return a + b;
}

static int six(int a, int b, int c, int d, int e, int f) {
    return a + 10 * b + 100 * c + 1000 * d + 10000 * e + 100000 * f;
}

static int deep(int n) {
    volatile int kept = n;
    return n == 0 ? 0 : deep(n - 1) + (kept == n);
}

static int next(void) {
    return ++count;
}

static unsigned sum(const unsigned char *from, int n) {
    unsigned s = 0;
    while (n--) s = s * 31 + *from++;
    return s;
}

static unsigned long long wide(unsigned a, unsigned b) {
    return (unsigned long long)a << 32 | b;
}

static int say(const char *text) {
    int n = 0;
    while (text[n]) n++;
    return syscall3(WRITE, 1, (int)text, n);
}

static int load(const int *from) {
    return *from;
}

static int leave(int status) {
    return syscall3(EXIT, status, 0, 0);
}

static void spin(void) {
    for (volatile int n = 0;;) n++;
}

static void wait(void) {
    for (;;) syscall3(TIME, 0, 0, 0);
}

/* ---- the table */

static const struct nested_function table[] = {
    NESTED_FUNCTION(add), NESTED_FUNCTION(six), NESTED_FUNCTION(deep), NESTED_FUNCTION(next), NESTED_FUNCTION(sum),
    NESTED_FUNCTION(wide), NESTED_FUNCTION(say), NESTED_FUNCTION(load), NESTED_FUNCTION(leave), NESTED_FUNCTION(wait), NESTED_FUNCTION(spin),
    NESTED_FUNCTION(malloc), NESTED_FUNCTION(free), NESTED_END,
};

int main(void) {
    nested_resident(table);
    return 1; /* no host that calls functions */
}
