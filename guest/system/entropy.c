/*
 * Bytes that nobody can guess: those of a host's /dev/urandom. Elsewhere there are none, and a program that must have some ends, unless the environment
 * has a word NESTED_SEED: then they come from a generator that begins with it, and whoever knows the word knows them.
 */
#include "call.h"
#include "host.h"

#include <errno.h>
#include <signal.h>
#include <stdint.h>
#include <stdlib.h>
#include <string.h>
#include <sys/random.h>
#include <unistd.h>

int nested_has_seed(void)
{
    return getenv("NESTED_SEED") != 0;
}

/* The next number of SplitMix64, which begins with the seed's text by FNV-1a. */
static uint64_t next(void)
{
    static uint64_t state;
    static int has_begun;
    uint64_t mixed;
    if (!has_begun) {
        state = 0xcbf29ce484222325;
        for (const char *seed = getenv("NESTED_SEED"); *seed != 0; seed++)
            state = (state ^ (unsigned char)*seed) * 0x100000001b3;
        has_begun = 1;
    }
    mixed = state += 0x9e3779b97f4a7c15;
    mixed = (mixed ^ mixed >> 30) * 0xbf58476d1ce4e5b9;
    mixed = (mixed ^ mixed >> 27) * 0x94d049bb133111eb;
    return mixed ^ mixed >> 31;
}

static void generate(unsigned char *into, size_t bytes)
{
    for (size_t i = 0; i < bytes; i++)
        into[i] = (unsigned char)(next() >> 56);
}

int nested_random(void *into, size_t bytes)
{
    long got = nested_has_seed() ? 0 : nested_host_read("/dev/urandom", into, bytes);
    if (nested_has_seed())
        generate(into, bytes);
    else if (got != (long)bytes) {
        errno = got < 0 ? (int)-got : EIO;
        return -1;
    }
    return 0;
}

static void put(const char *text)
{
    nested_call(CALL_WRITE, STDERR_FILENO, (long)text, (long)strlen(text));
}

/* A program that asks so does not go on without them, and some would not even say why. */
int getentropy(void *into, size_t bytes)
{
    if (bytes > 256) {
        errno = EIO;
        return -1;
    }
    if (nested_random(into, bytes) == 0)
        return 0;
    put(getprogname());
    put(": no random bytes: there is no /dev/urandom here, and no NESTED_SEED in the environment\n");
    nested_killed(SIGABRT);
}

ssize_t getrandom(void *into, size_t bytes, unsigned flags)
{
    (void)flags;
    for (size_t done = 0; done < bytes; done += 256)
        getentropy((char *)into + done, bytes - done < 256 ? bytes - done : 256);
    return (ssize_t)bytes;
}
