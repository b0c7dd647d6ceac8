/* Mappings: memory from malloc, into which a file's bytes are read. What is written there stays there, so a shared file that may be written is refused. */
#include "call.h"

#include <errno.h>
#include <malloc.h>
#include <stdlib.h>
#include <string.h>
#include <sys/mman.h>
#include <sys/stat.h>
#include <unistd.h>

#pragma GCC diagnostic ignored "-Wunused-parameter"

#define PAGE 4096u

struct mapping {
    struct mapping *next;
    char *start;
    size_t bytes;
};

static struct mapping *mappings;

static void *fails(int error)
{
    errno = error;
    return MAP_FAILED;
}

/* Reads a file's bytes from a place on, as far as there are some: whether it could be read. */
static int fill(char *into, size_t bytes, int fd, off_t place)
{
    size_t done = 0;
    ssize_t got = 1;
    while (done < bytes && (got = pread(fd, into + done, bytes - done, place + (off_t)done)) > 0)
        done += (size_t)got;
    return got >= 0;
}

void *mmap(void *at, size_t bytes, int protection, int flags, int fd, off_t place)
{
    size_t pages = (bytes + PAGE - 1) / PAGE * PAGE;
    struct mapping *made;
    if (pages == 0 || (flags & (MAP_SHARED | MAP_PRIVATE)) == 0 || place % (off_t)PAGE != 0)
        return fails(EINVAL);
    if ((flags & MAP_FIXED) != 0)
        return fails(ENOMEM);
    if ((flags & MAP_ANONYMOUS) == 0 && (flags & MAP_SHARED) != 0 && (protection & PROT_WRITE) != 0)
        return fails(ENODEV);
    made = malloc(sizeof *made);
    if (made == 0 || (made->start = memalign(PAGE, pages)) == 0) {
        free(made);
        return fails(ENOMEM);
    }
    memset(made->start, 0, pages);
    if ((flags & MAP_ANONYMOUS) == 0 && !fill(made->start, bytes, fd, place)) {
        free(made->start);
        free(made);
        return MAP_FAILED;
    }
    made->bytes = pages;
    made->next = mappings;
    mappings = made;
    return made->start;
}

/* A mapping is given back as a whole. Of one that is given back in parts the memory stays taken, until its start is. */
int munmap(void *at, size_t bytes)
{
    if (((unsigned long)at & (PAGE - 1)) != 0 || bytes == 0) {
        errno = EINVAL;
        return -1;
    }
    for (struct mapping **place = &mappings; *place != 0; place = &(*place)->next) {
        struct mapping *found = *place;
        if (found->start == at && found->bytes <= (bytes + PAGE - 1) / PAGE * PAGE) {
            *place = found->next;
            free(found->start);
            free(found);
            return 0;
        }
    }
    return 0;
}

int msync(void *at, size_t bytes, int flags)
{
    return 0;
}

/* What can be read can be written, and nothing of it be executed. */
int mprotect(void *at, size_t bytes, int protection)
{
    if ((protection & PROT_EXEC) != 0) {
        errno = EACCES;
        return -1;
    }
    return 0;
}

int madvise(void *at, size_t bytes, int advice)
{
    return 0;
}

int posix_madvise(void *at, size_t bytes, int advice)
{
    return 0;
}

int mlock(const void *at, size_t bytes)
{
    return 0;
}

int munlock(const void *at, size_t bytes)
{
    return 0;
}

int mlockall(int flags)
{
    return 0;
}

int munlockall(void)
{
    return 0;
}

int shm_open(const char *name, int flags, mode_t mode)
{
    return nested_missing();
}

int shm_unlink(const char *name)
{
    return nested_missing();
}
