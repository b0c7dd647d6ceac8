/* Bytes at a place, and in several rooms; and what is done with a whole file. */
#include "call.h"

#include <errno.h>
#include <fcntl.h>
#include <string.h>
#include <sys/file.h>
#include <sys/sendfile.h>
#include <sys/stat.h>
#include <sys/statvfs.h>
#include <sys/uio.h>
#include <unistd.h>

#pragma GCC diagnostic ignored "-Wunused-parameter"

/* ---- at a place: the descriptor's own comes back */

static ssize_t at_place(int fd, off_t place, const struct iovec *rooms, int count, ssize_t (*move)(int, const struct iovec *, int))
{
    off_t before = lseek(fd, 0, SEEK_CUR);
    ssize_t moved;
    int error;
    if (before < 0 || lseek(fd, place, SEEK_SET) < 0)
        return -1;
    moved = move(fd, rooms, count);
    error = errno;
    lseek(fd, before, SEEK_SET);
    errno = error;
    return moved;
}

ssize_t pread(int fd, void *into, size_t bytes, off_t place)
{
    struct iovec room = { into, bytes };
    return at_place(fd, place, &room, 1, readv);
}

ssize_t pwrite(int fd, const void *from, size_t bytes, off_t place)
{
    struct iovec room = { (void *)from, bytes };
    return at_place(fd, place, &room, 1, writev);
}

ssize_t preadv(int fd, const struct iovec *rooms, int count, off_t place)
{
    return at_place(fd, place, rooms, count, readv);
}

ssize_t pwritev(int fd, const struct iovec *rooms, int count, off_t place)
{
    return at_place(fd, place, rooms, count, writev);
}

/* ---- in several rooms: one after the other, until one is not filled */

ssize_t readv(int fd, const struct iovec *rooms, int count)
{
    ssize_t all = 0;
    for (int i = 0; i < count; i++) {
        ssize_t moved = read(fd, rooms[i].iov_base, rooms[i].iov_len);
        if (moved < 0)
            return all > 0 ? all : -1;
        all += moved;
        if ((size_t)moved < rooms[i].iov_len)
            break;
    }
    return all;
}

ssize_t writev(int fd, const struct iovec *rooms, int count)
{
    ssize_t all = 0;
    for (int i = 0; i < count; i++) {
        ssize_t moved = write(fd, rooms[i].iov_base, rooms[i].iov_len);
        if (moved < 0)
            return all > 0 ? all : -1;
        all += moved;
    }
    return all;
}

/* ---- from one file to another */

ssize_t sendfile(int to, int from, off_t *place, size_t bytes)
{
    char room[4096];
    ssize_t got, all = 0;
    while ((size_t)all < bytes) {
        size_t wanted = bytes - (size_t)all < sizeof room ? bytes - (size_t)all : sizeof room;
        got = place != 0 ? pread(from, room, wanted, *place) : read(from, room, wanted);
        if (got <= 0 || write(to, room, (size_t)got) != got)
            return all > 0 || got == 0 ? all : -1;
        if (place != 0)
            *place += got;
        all += got;
    }
    return all;
}

/* ---- of a file as a whole: locks are free, what is written is there, and advice is not needed */

static int is_open(int fd)
{
    return fcntl(fd, F_GETFD) >= 0 ? 0 : -1;
}

int lockf(int fd, int command, off_t bytes)
{
    return is_open(fd);
}

int fdatasync(int fd)
{
    return is_open(fd);
}

void sync(void)
{
}

int posix_fadvise(int fd, off_t place, off_t bytes, int advice)
{
    return is_open(fd) == 0 ? 0 : EBADF;
}

int posix_fallocate(int fd, off_t place, off_t bytes)
{
    struct stat found;
    if (place < 0 || bytes <= 0)
        return EINVAL;
    if (fstat(fd, &found) < 0)
        return errno;
    if (place + bytes > found.st_size && ftruncate(fd, place + bytes) < 0)
        return errno;
    return 0;
}

int statvfs(const char *path, struct statvfs *into)
{
    return nested_missing();
}

int fstatvfs(int fd, struct statvfs *into)
{
    return nested_missing();
}
