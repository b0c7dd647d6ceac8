/* What is left of POSIX and BSD: memory on a boundary, streams that one thread has to itself, the state of random, and names of the machine. */
#include "call.h"

#include <errno.h>
#include <ieeefp.h>
#include <malloc.h>
#include <math.h>
#include <stdio.h>
#include <search.h>
#include <stdlib.h>
#include <string.h>
#include <sys/utsname.h>
#include <unistd.h>

#pragma GCC diagnostic ignored "-Wunused-parameter"

/* ---- memory */

int posix_memalign(void **into, size_t boundary, size_t bytes)
{
    void *made;
    if (boundary < sizeof(void *) || (boundary & (boundary - 1)) != 0)
        return EINVAL;
    made = memalign(boundary, bytes);
    if (made == 0)
        return ENOMEM;
    *into = made;
    return 0;
}

char *secure_getenv(const char *name)
{
    return getenv(name);
}

/* ---- streams: there is one thread, so each is its own */

#undef flockfile
#undef ftrylockfile
#undef funlockfile

void flockfile(FILE *stream)
{
}

int ftrylockfile(FILE *stream)
{
    return 0;
}

void funlockfile(FILE *stream)
{
}

ssize_t __getline(char **line, size_t *room, FILE *from);
ssize_t __getdelim(char **text, size_t *room, int end, FILE *from);

ssize_t getline(char **line, size_t *room, FILE *from)
{
    return __getline(line, room, from);
}

ssize_t getdelim(char **text, size_t *room, int end, FILE *from)
{
    return __getdelim(text, room, end, from);
}

/* ---- terminals of others */

int posix_openpt(int flags)
{
    return nested_missing();
}

int grantpt(int fd)
{
    return nested_missing();
}

int unlockpt(int fd)
{
    return nested_missing();
}

char *ptsname(int fd)
{
    nested_missing();
    return 0;
}

/* ---- numbers and the environment */

long long strtoq(const char *text, char **end, int base)
{
    return strtoll(text, end, base);
}

unsigned long long strtouq(const char *text, char **end, int base)
{
    return strtoull(text, end, base);
}

extern char **environ;

int clearenv(void)
{
    static char *none[1];
    environ = none;
    return 0;
}

/* ---- searches */

void *lfind(const void *key, const void *array, size_t *count, size_t bytes, int (*compare)(const void *, const void *))
{
    const char *place = array;
    for (size_t i = 0; i < *count; i++, place += bytes)
        if (compare(key, place) == 0)
            return (void *)place;
    return 0;
}

void *lsearch(const void *key, void *array, size_t *count, size_t bytes, int (*compare)(const void *, const void *))
{
    void *found = lfind(key, array, count, bytes, compare);
    if (found != 0)
        return found;
    return memcpy((char *)array + (*count)++ * bytes, key, bytes);
}

/* An element of a list that goes both ways begins with these. */
struct links {
    struct links *next, *before;
};

void insque(void *element, void *before)
{
    struct links *made = element, *place = before;
    made->before = place;
    made->next = place != 0 ? place->next : 0;
    if (made->next != 0)
        made->next->before = made;
    if (place != 0)
        place->next = made;
}

void remque(void *element)
{
    struct links *gone = element;
    if (gone->next != 0)
        gone->next->before = gone->before;
    if (gone->before != 0)
        gone->before->next = gone->next;
}

/* ---- random: newlib has one state of its own, which these begin anew and give back */

static char random_state[8];

char *initstate(unsigned seed, char *state, size_t bytes)
{
    srandom(seed);
    return random_state;
}

char *setstate(char *state)
{
    return random_state;
}

/* ---- the machine */

int uname(struct utsname *into)
{
    memset(into, 0, sizeof *into);
    strcpy(into->sysname, "nested");
    strcpy(into->nodename, "localhost");
    strcpy(into->release, "1");
    strcpy(into->version, "1");
    strcpy(into->machine, "mips");
    return 0;
}

int gethostname(char *into, size_t bytes)
{
    static const char name[] = "localhost";
    if (bytes < sizeof name) {
        errno = ENAMETOOLONG;
        return -1;
    }
    strcpy(into, name);
    return 0;
}

int sethostname(const char *name, size_t bytes)
{
    return nested_missing();
}

int getdomainname(char *into, size_t bytes)
{
    if (bytes > 0)
        *into = 0;
    return 0;
}

long gethostid(void)
{
    return 0;
}

int getloadavg(double into[], int most)
{
    return -1;
}

/* ---- floats: rounding is to the nearest, and nothing traps or is remembered */

fp_rnd fpgetround(void)
{
    return FP_RN;
}

fp_rnd fpsetround(fp_rnd way)
{
    return FP_RN;
}

fp_except fpgetmask(void)
{
    return 0;
}

fp_except fpsetmask(fp_except mask)
{
    return 0;
}

fp_except fpgetsticky(void)
{
    return 0;
}

fp_except fpsetsticky(fp_except flags)
{
    return 0;
}

fp_rdi fpgetroundtoi(void)
{
    return FP_RDI_TOZ;
}

fp_rdi fpsetroundtoi(fp_rdi way)
{
    return FP_RDI_TOZ;
}
