/* What has no counterpart: it is there so that programs link, and fails with ENOSYS. */
#include "call.h"

#include <errno.h>
#include <stdlib.h>
#include <sys/resource.h>
#include <sys/stat.h>
#include <unistd.h>

#pragma GCC diagnostic ignored "-Wunused-parameter"

/* ---- links and devices */

int link(const char *from, const char *to)
{
    return nested_missing();
}

int symlink(const char *from, const char *to)
{
    return nested_missing();
}

/* No file is a link, and that is what EINVAL says here. */
ssize_t readlink(const char *path, char *into, size_t bytes)
{
    struct stat found;
    if (lstat(path, &found) < 0)
        return -1;
    errno = EINVAL;
    return -1;
}

int mknod(const char *path, mode_t mode, dev_t device)
{
    return nested_missing();
}

int mkfifo(const char *path, mode_t mode)
{
    return nested_missing();
}

/* ---- other processes */

pid_t fork(void)
{
    return nested_missing();
}

pid_t vfork(void)
{
    return nested_missing();
}

/* newlib's execve is this */
int _execve(const char *path, char *const *words, char *const *environment)
{
    return nested_missing();
}

/* newlib's own functions are made of execve, these are not there */
int execvpe(const char *name, char *const words[], char *const environment[])
{
    return nested_missing();
}

int execlpe(const char *name, const char *word, ...)
{
    return nested_missing();
}

int fexecve(int fd, char *const words[], char *const environment[])
{
    return nested_missing();
}

int daemon(int stays, int keeps)
{
    return nested_missing();
}

int chroot(const char *path)
{
    return nested_missing();
}

int killpg(pid_t group, int signal)
{
    return nested_missing();
}

int setpgid(pid_t process, pid_t group)
{
    return nested_missing();
}

pid_t setsid(void)
{
    return nested_missing();
}

int setpgrp(void)
{
    return nested_missing();
}

int setrlimit(int resource, const struct rlimit *from)
{
    return nested_missing();
}
