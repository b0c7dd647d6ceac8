/* Bytes of input and output one by one, through small buffers: by read and write alone, so that it also compiles where there is no C library. */
#include <unistd.h>

static unsigned char taken[256], given[256];
static int next_taken, all_taken, all_given, ended, failed;

/* The next byte of input, or -1 behind its end. */
static int get(void)
{
    if (next_taken == all_taken && !ended) {
        next_taken = 0;
        all_taken = (int)read(0, taken, sizeof taken);
        if (all_taken <= 0) {
            failed |= all_taken < 0;
            all_taken = 0;
            ended = 1;
        }
    }
    return ended ? -1 : taken[next_taken++];
}

/* Writes what was put. */
static void flush(void)
{
    int at = 0;
    while (at < all_given) {
        int n = (int)write(1, given + at, (unsigned)(all_given - at));
        if (n <= 0) {
            failed = 1;
            break;
        }
        at += n;
    }
    all_given = 0;
}

/* A byte of output. */
static void put(int byte)
{
    given[all_given++] = (unsigned char)byte;
    if (all_given == sizeof given)
        flush();
}
