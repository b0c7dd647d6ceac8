/* Functions that call functions of Java, by their addresses, as any function of C (docs/HOST.md). */
#include "calls.h"
#include "heap.h"

#include <nested/resident.h>

/* hands the table to the host, and is ready (guest/system/resident.S) */
void nested_resident(const struct nested_function *table);

typedef int comparison(const void *, const void *);
typedef int one(int);

/* ---- arguments and values */

static int apply(one *f, int x) {
    return f(x) + 1;
}

static int apply_six(int (*f)(int, int, int, int, int, int)) {
    return f(1, 2, 3, 4, 5, 6) + 1;
}

/* the long long stands at an even place, behind a hole, and the double on the stack */
static long long apply_wide(long long (*f)(int, long long, double), long long x, double y) {
    return f(7, x, y) + 1;
}

static double apply_double(double (*f)(double, double), double x, double y) {
    return f(x, y);
}

static float apply_float(float (*f)(float), float x) {
    return f(x);
}

/* a signed and an unsigned byte, two halves, a truth value and a text */
static int apply_small(int (*f)(signed char, short, unsigned short, _Bool, const char *)) {
    return f(-1, -2, 65533, 1, "text");
}

struct point {
    int x;
    int y;
    short z;
    signed char c;
    double d;
};

static int apply_point(int (*f)(struct point *)) {
    struct point p = {1, 2, 3, 4, 0};
    int given = f(&p);
    return given * 10000 + p.x * 1000 + p.y * 100 + p.z * 10 + p.c;
}

/* keeps much in registers while Java runs */
static int many(one *f, int a, int b, int c) {
    int d = a * 3, e = b * 5, g = c * 7, h = a ^ b, k = b ^ c;
    int given = f(a);
    given += f(b + given);
    return given + a + b + c + d + e * 2 + g * 3 + h * 4 + k * 5;
}

static int loop(one *f, int n) {
    int given = 0;
    for (int i = 0; i < n; i++) given = f(given);
    return given;
}

/* what is on the stack stays while Java runs */
static int deep(one *f, int n) {
    volatile int kept[16];
    for (int i = 0; i < 16; i++) kept[i] = n + i;
    int given = f(n);
    for (int i = 0; i < 16; i++) {
        if (kept[i] != n + i) return -1000000;
    }
    return given + 1;
}

/* ---- a sort of words */

static void sift(int *words, unsigned from, unsigned count, comparison *compare) {
    unsigned child;
    while ((child = 2 * from + 1) < count) {
        if (child + 1 < count && compare(words + child, words + child + 1) < 0) child++;
        if (compare(words + from, words + child) >= 0) return;
        int word = words[from];
        words[from] = words[child];
        words[child] = word;
        from = child;
    }
}

static void sort(int *words, unsigned count, comparison *compare) {
    for (unsigned from = count / 2; from > 0; from--) sift(words, from - 1, count, compare);
    while (count > 1) {
        int word = words[--count];
        words[count] = words[0];
        words[0] = word;
        sift(words, 0, count, compare);
    }
}

/* ---- jumps over functions of Java */

static void *place[5];

static int __attribute__((noinline)) jump(int unused) {
    (void)unused;
    __builtin_longjmp(place, 1);
}

/* what f gives and 1, or 100 where it was left by jump */
static int __attribute__((noinline)) guarded(one *f, int x) {
    if (__builtin_setjmp(place)) return 100;
    return f(x) + 1;
}

/* how many of n calls of f were left by jump */
static int __attribute__((noinline)) guarded_loop(one *f, int n) {
    volatile int left = 0;
    for (volatile int i = 0; i < n; i++) {
        if (__builtin_setjmp(place)) left++;
        else f(i);
    }
    return left;
}

/* ---- what goes wrong */

static int crash(void) {
    return *(volatile int *)0;
}

static int leave(int status) {
    return syscall3(EXIT, status, 0, 0);
}

static int say(const char *text) {
    int n = 0;
    while (text[n]) n++;
    return syscall3(WRITE, 1, (int)text, n);
}

/* ---- what a hostile program does: it makes the calls of stubs with words of its own (start.s) */

static int stray(int number, int words, int stack) {
    register int r2 __asm__("$2") = 66;
    register int r4 __asm__("$4") = number;
    register int r5 __asm__("$5") = words;
    register int r6 __asm__("$6") = stack;
    register int r7 __asm__("$7") = 0;
    __asm__ volatile("syscall" : "+r"(r2) : "r"(r4), "r"(r5), "r"(r6), "r"(r7) : "memory");
    return r2;
}

/* returns to the host with another stack pointer than it was called with */
static int stray_return(int stack) {
    register int r2 __asm__("$2") = 65;
    register int r4 __asm__("$4") = 7;
    register int r6 __asm__("$6") = stack;
    __asm__ volatile("syscall" : "+r"(r2) : "r"(r4), "r"(r6) : "memory");
    return r2;
}

static const struct nested_function table[] = {
    NESTED_FUNCTION(apply), NESTED_FUNCTION(apply_six), NESTED_FUNCTION(apply_wide), NESTED_FUNCTION(apply_double),
    NESTED_FUNCTION(apply_float), NESTED_FUNCTION(apply_small), NESTED_FUNCTION(apply_point), NESTED_FUNCTION(many),
    NESTED_FUNCTION(loop), NESTED_FUNCTION(deep), NESTED_FUNCTION(sort), NESTED_FUNCTION(jump), NESTED_FUNCTION(guarded),
    NESTED_FUNCTION(guarded_loop), NESTED_FUNCTION(crash), NESTED_FUNCTION(leave), NESTED_FUNCTION(say), NESTED_FUNCTION(stray),
    NESTED_FUNCTION(stray_return), NESTED_FUNCTION(malloc), NESTED_FUNCTION(free), NESTED_END,
};

int main(void) {
    nested_resident(table);
    return 1; /* no host that calls functions */
}
