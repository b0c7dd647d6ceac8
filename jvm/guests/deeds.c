/* Does what its arguments say, one after the other, and leaves with how often it has counted. */
#include "calls.h"

static char room[4096];
static int counted;

static int length(const char *text) {
    int n = 0;
    while (text[n]) n++;
    return n;
}

static void put(const char *text) {
    syscall3(WRITE, 1, (int)text, length(text));
}

static void put_number(int n) {
    char digits[12];
    int at = 12;
    unsigned left = n < 0 ? -(unsigned)n : (unsigned)n;
    digits[--at] = 0;
    do {
        digits[--at] = (char)('0' + left % 10);
        left /= 10;
    } while (left);
    if (n < 0) digits[--at] = '-';
    put(&digits[at]);
    put("\n");
}

/* input to output and error output, line by line */
static void echo(void) {
    int n;
    while ((n = syscall3(READ, 0, (int)room, sizeof room)) > 0) {
        syscall3(WRITE, 1, (int)room, n);
        syscall3(WRITE, 2, (int)room, n);
    }
}

/* a file to a file; the error of the call that was refused, or 0 */
static int copy(const char *from, const char *to) {
    int in = syscall3(OPEN, (int)from, FOR_READING, 0);
    if (in < 0) return in;
    int out = syscall3(OPEN, (int)to, FOR_WRITING | CREATE | TRUNCATE, 0);
    if (out < 0) return out;
    int n;
    while ((n = syscall3(READ, in, (int)room, sizeof room)) > 0) {
        n = syscall3(WRITE, out, (int)room, n);
        if (n < 0) return n;
    }
    syscall3(CLOSE, in, 0, 0);
    return syscall3(CLOSE, out, 0, 0);
}

/* the first byte of a file, the second one by another descriptor when the file has lost its name, and how many bytes are then left of others */
static int hold(const char *name, const char *record, const char *device) {
    int in = syscall3(OPEN, (int)name, FOR_READING, 0);
    int same = syscall3(DUP, in, 0, 0);
    int other = syscall3(OPEN, (int)record, FOR_READING, 0);
    int zeros = syscall3(OPEN, (int)device, FOR_READING, 0);
    syscall3(UNLINK, (int)name, 0, 0);
    syscall3(READ, in, (int)room, 1);
    syscall3(CLOSE, in, 0, 0);
    syscall3(READ, same, (int)room + 1, 1);
    syscall3(WRITE, 1, (int)room, 2);
    return syscall3(READ, other, (int)room, sizeof room) + syscall3(READ, zeros, (int)room, 7);
}

/* a sum that takes a while to make */
static int work(void) {
    unsigned sum = 1;
    for (int i = 0; i < 1000000; i++) sum = sum * 1664525u + 1013904223u;
    return (int)sum;
}

/* bytes to output for ever */
static void flood(void) {
    for (;;) syscall3(WRITE, 1, (int)room, sizeof room);
}

/* bytes into a file until no more go in; the error of the call that was refused */
static int grow(const char *name) {
    int out = syscall3(OPEN, (int)name, FOR_WRITING | CREATE, 0);
    int n = out;
    while (n >= 0) n = syscall3(WRITE, out, (int)room, sizeof room);
    return n;
}

static int is(const char *a, const char *b) {
    while (*a && *a == *b) a++, b++;
    return *a == *b;
}

int main(int argc, char **argv) {
    for (int i = 1; i < argc; i++) {
        if (is(argv[i], "name")) put(argv[0]), put("\n");
        else if (is(argv[i], "count")) put_number(++counted);
        else if (is(argv[i], "echo")) echo();
        else if (is(argv[i], "work")) put_number(work());
        else if (is(argv[i], "time")) put_number(syscall3(TIME, 0, 0, 0));
        else if (is(argv[i], "copy")) put_number(copy(argv[i + 1], argv[i + 2])), i += 2;
        else if (is(argv[i], "hold")) put_number(hold(argv[i + 1], argv[i + 2], argv[i + 3])), i += 3;
        else if (is(argv[i], "rename")) put_number(syscall3(RENAME, (int)argv[i + 1], (int)argv[i + 2], 0)), i += 2;
        else if (is(argv[i], "remove")) put_number(syscall3(UNLINK, (int)argv[i + 1], 0, 0)), i += 1;
        else if (is(argv[i], "open")) put_number(syscall3(OPEN, (int)argv[i + 1], FOR_READING, 0)), i += 1;
        else if (is(argv[i], "fault")) put_number(*(volatile int *)4);
        else if (is(argv[i], "flood")) flood();
        else if (is(argv[i], "grow")) put_number(grow(argv[i + 1])), i += 1;
        else if (is(argv[i], "spin")) for (volatile int n = 0;;) n++;
        else if (is(argv[i], "wait")) for (;;) syscall3(TIME, 0, 0, 0);
        else put(argv[i]), put("\n");
    }
    return counted;
}
