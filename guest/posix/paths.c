/* Paths taken apart, and paths from a folder that is open. */
#include "call.h"

#include <errno.h>
#include <fcntl.h>
#include <libgen.h>
#include <limits.h>
#include <stdarg.h>
#include <stdio.h>
#include <stdlib.h>
#include <string.h>
#include <sys/stat.h>
#include <sys/time.h>
#include <unistd.h>

#pragma GCC diagnostic ignored "-Wunused-parameter"

/* ---- apart */

/* The bytes of a path without the slashes at its end, of which one stays where there is nothing else. */
static size_t without_slashes(const char *path, size_t bytes)
{
    while (bytes > 1 && path[bytes - 1] == '/')
        bytes--;
    return bytes;
}

char *dirname(char *path)
{
    size_t bytes = path != 0 ? without_slashes(path, strlen(path)) : 0;
    while (bytes > 0 && path[bytes - 1] != '/')
        bytes--;
    if (bytes == 0)
        return ".";
    path[without_slashes(path, bytes)] = 0;
    return path;
}

/* <libgen.h> gives it the name basename; GNU's, which <string.h> declares, is newlib's own. */
char *__xpg_basename(char *path)
{
    char *slash;
    if (path == 0 || *path == 0)
        return ".";
    path[without_slashes(path, strlen(path))] = 0;
    slash = strrchr(path, '/');
    return slash != 0 && slash[1] != 0 ? slash + 1 : path;
}

/* ---- whole: a path without dots, of something that is there */

char *realpath(const char *path, char *into)
{
    char whole[PATH_MAX + 1];
    struct stat found;
    if (path == 0 || *path == 0) {
        errno = path == 0 ? EINVAL : ENOENT;
        return 0;
    }
    if (stat(path, &found) < 0 || nested_whole_path(path, whole) < 0)
        return 0;
    return into != 0 ? strcpy(into, whole) : strdup(whole);
}

char *canonicalize_file_name(const char *path)
{
    return realpath(path, 0);
}

char *getwd(char *into)
{
    return getcwd(into, PATH_MAX);
}

char *get_current_dir_name(void)
{
    return getcwd(0, 0);
}

/* ---- limits */

static long limit_of(int name)
{
    switch (name) {
    case _PC_LINK_MAX:
        return 1;
    case _PC_MAX_CANON:
    case _PC_MAX_INPUT:
    case _PC_NAME_MAX:
    case _PC_PATH_MAX:
        return NAME_BYTES - 1;
    case _PC_PIPE_BUF:
        return 4096;
    case _PC_CHOWN_RESTRICTED:
    case _PC_NO_TRUNC:
        return 1;
    case _PC_VDISABLE:
        return 0;
    case _PC_FILESIZEBITS:
        return 32;
    default:
        errno = EINVAL;
        return -1;
    }
}

long pathconf(const char *path, int name)
{
    struct stat found;
    return stat(path, &found) < 0 ? -1 : limit_of(name);
}

long fpathconf(int fd, int name)
{
    struct stat found;
    return fstat(fd, &found) < 0 ? -1 : limit_of(name);
}

size_t confstr(int name, char *into, size_t bytes)
{
    static const char path[] = "/bin:/usr/bin";
    if (name != _CS_PATH) {
        errno = EINVAL;
        return 0;
    }
    if (bytes > 0)
        snprintf(into, bytes, "%s", path);
    return sizeof path;
}

/* ---- from a folder: the folder's path with the other one behind it, unless that is absolute */

static const char *from_folder(int folder, const char *path, char into[PATH_MAX + 1])
{
    const char *start = folder == AT_FDCWD || (path != 0 && *path == '/') ? "" : nested_folder_path(folder);
    if (start == 0 || path == 0 || *start == 0)
        return start == 0 ? 0 : path;
    if (snprintf(into, PATH_MAX + 1, "%s/%s", start, path) > PATH_MAX) {
        errno = ENAMETOOLONG;
        return 0;
    }
    return into;
}

int openat(int folder, const char *path, int flags, ...)
{
    char whole[PATH_MAX + 1];
    path = from_folder(folder, path, whole);
    return path == 0 ? -1 : open(path, flags, 0666);
}

int fstatat(int folder, const char *path, struct stat *into, int flags)
{
    char whole[PATH_MAX + 1];
    if ((flags & AT_EMPTY_PATH) != 0 && *path == 0)
        return fstat(folder, into);
    path = from_folder(folder, path, whole);
    return path == 0 ? -1 : flags & AT_SYMLINK_NOFOLLOW ? lstat(path, into) : stat(path, into);
}

int faccessat(int folder, const char *path, int mode, int flags)
{
    char whole[PATH_MAX + 1];
    path = from_folder(folder, path, whole);
    return path == 0 ? -1 : access(path, mode);
}

int euidaccess(const char *path, int mode)
{
    return access(path, mode);
}

int eaccess(const char *path, int mode)
{
    return access(path, mode);
}

int fchmodat(int folder, const char *path, mode_t mode, int flags)
{
    char whole[PATH_MAX + 1];
    path = from_folder(folder, path, whole);
    return path == 0 ? -1 : chmod(path, mode);
}

int fchownat(int folder, const char *path, uid_t user, gid_t group, int flags)
{
    char whole[PATH_MAX + 1];
    path = from_folder(folder, path, whole);
    return path == 0 ? -1 : chown(path, user, group);
}

int mkdirat(int folder, const char *path, mode_t mode)
{
    char whole[PATH_MAX + 1];
    path = from_folder(folder, path, whole);
    return path == 0 ? -1 : mkdir(path, mode);
}

int mkfifoat(int folder, const char *path, mode_t mode)
{
    return nested_missing();
}

int mknodat(int folder, const char *path, mode_t mode, dev_t device)
{
    return nested_missing();
}

int unlinkat(int folder, const char *path, int flags)
{
    char whole[PATH_MAX + 1];
    path = from_folder(folder, path, whole);
    return path == 0 ? -1 : flags & AT_REMOVEDIR ? rmdir(path) : unlink(path);
}

int renameat(int old_folder, const char *old, int new_folder, const char *new)
{
    char old_whole[PATH_MAX + 1], new_whole[PATH_MAX + 1];
    old = from_folder(old_folder, old, old_whole);
    new = old != 0 ? from_folder(new_folder, new, new_whole) : 0;
    return new == 0 ? -1 : rename(old, new);
}

int linkat(int old_folder, const char *old, int new_folder, const char *new, int flags)
{
    return link(old, new);
}

int symlinkat(const char *text, int folder, const char *path)
{
    return symlink(text, path);
}

ssize_t readlinkat(int folder, const char *path, char *into, size_t bytes)
{
    char whole[PATH_MAX + 1];
    path = from_folder(folder, path, whole);
    return path == 0 ? -1 : readlink(path, into, bytes);
}

int utimensat(int folder, const char *path, const struct timespec *times, int flags)
{
    char whole[PATH_MAX + 1];
    path = from_folder(folder, path, whole);
    return path == 0 ? -1 : utimes(path, 0);
}

int futimesat(int folder, const char *path, const struct timeval times[2])
{
    return utimensat(folder, path, 0, 0);
}
