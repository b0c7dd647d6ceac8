/*
 * Folders, which a host answers by files: one lists a folder, one tells what a name stands for, and a name with a slash behind it stands for a folder
 * that is made, removed or renamed. Without such a host there are none, and these fail with ENOSYS; those that are there all the same can be opened.
 */
#include "call.h"
#include "host.h"

#include <dirent.h>
#include <errno.h>
#include <fcntl.h>
#include <stdio.h>
#include <stdlib.h>
#include <string.h>
#include <sys/stat.h>
#include <unistd.h>

#pragma GCC diagnostic ignored "-Wunused-parameter"

/* ---- what a host tells of a name: its mode in 4 bytes, its size in 8, and when it was changed and when it was read */

#define STATUS_BYTES (12 + 2 * HOST_TIME_BYTES)

int nested_host_stat(const char *prefix, const char *name, struct stat *into)
{
    unsigned char status[STATUS_BYTES];
    char whole[NAME_BYTES];
    long got;
    if (nested_host_name(prefix, name, whole) == 0)
        return 0;                       /* too long to be asked for so */
    got = nested_host_read(whole, status, sizeof status);
    if (got < 0) {
        errno = (int)-got;
        return -1;
    }
    into->st_mode = (mode_t)nested_host_word(status);
    into->st_size = (off_t)nested_host_long(status + 4);
    into->st_blocks = (into->st_size + 511) / 512;
    into->st_mtim = into->st_ctim = nested_host_time(status + 12);
    into->st_atim = nested_host_time(status + 12 + HOST_TIME_BYTES);
    return 1;
}

/* ---- folders that are open: their paths by descriptors */

static char *paths[DESCRIPTORS];

const char *nested_folder_path(int fd)
{
    if (fd < 0 || fd >= DESCRIPTORS || paths[fd] == 0) {
        errno = fcntl(fd, F_GETFD) < 0 ? EBADF : ENOTDIR;
        return 0;
    }
    return paths[fd];
}

void nested_set_folder_path(int fd, char *path)
{
    free(paths[fd]);
    paths[fd] = path;
}

int nested_open_list(const char *name)
{
    char whole[NAME_BYTES];
    return nested_host_name(HOST_LIST, name, whole) != 0 ? (int)nested_answer(nested_call(CALL_OPEN, (long)whole, O_RDONLY, 0)) : -1;
}

/* ---- lists: each name has a byte before it that tells its kind, and a zero behind it */

struct __nested_folder {
    int fd;
    long place;                         /* of the next name, 0 and 1 for those that each folder has, and 2 more than its place in the list */
    long bytes;
    char *list;
    struct dirent entry;
};

/* Reads the whole list of a folder from its start on: whether that could be done. */
static int read_list(DIR *folder)
{
    long room = 4096, got;
    nested_call(CALL_LSEEK, folder->fd, 0, SEEK_SET);
    folder->place = folder->bytes = 0;
    for (;;) {
        char *larger = folder->list == 0 || room - folder->bytes < 2048 ? realloc(folder->list, (size_t)(room *= 2)) : folder->list;
        if (larger == 0)
            return 0;
        folder->list = larger;
        got = nested_call(CALL_READ, folder->fd, (long)folder->list + folder->bytes, room - folder->bytes);
        if (got <= 0)
            return got == 0;
        folder->bytes += got;
    }
}

DIR *fdopendir(int fd)
{
    DIR *made;
    if (nested_folder_path(fd) == 0)
        return 0;
    made = nested_host_has_folders() ? calloc(1, sizeof *made) : (nested_missing(), (DIR *)0);
    if (made == 0)
        return 0;
    made->fd = fd;
    if (read_list(made))
        return made;
    free(made->list);
    free(made);
    errno = ENOMEM;
    return 0;
}

DIR *opendir(const char *path)
{
    int fd, error;
    DIR *made;
    if (!nested_host_has_folders()) {
        nested_missing();
        return 0;
    }
    fd = open(path, O_RDONLY | O_DIRECTORY);
    made = fd >= 0 ? fdopendir(fd) : 0;
    if (fd >= 0 && made == 0) {
        error = errno;
        close(fd);
        errno = error;
    }
    return made;
}

int fdclosedir(DIR *folder)
{
    int fd = folder->fd;
    free(folder->list);
    free(folder);
    return fd;
}

int closedir(DIR *folder)
{
    return close(fdclosedir(folder));
}

int dirfd(DIR *folder)
{
    return folder->fd;
}

static struct dirent *entry(DIR *folder, unsigned char type, const char *name)
{
    struct dirent *into = &folder->entry;
    into->d_ino = 1;
    into->d_off = folder->place;
    into->d_reclen = sizeof *into;
    into->d_type = type;
    strlcpy(into->d_name, name, sizeof into->d_name);
    return into;
}

struct dirent *readdir(DIR *folder)
{
    const char *found = folder->list + folder->place - 2;
    if (folder->place < 2)
        return entry(folder, DT_DIR, folder->place++ == 0 ? "." : "..");
    if (folder->place - 2 >= folder->bytes)
        return 0;
    folder->place += (long)strlen(found) + 1;
    return entry(folder, *found == 'd' ? DT_DIR : *found == 'f' ? DT_REG : DT_UNKNOWN, found + 1);
}

int readdir_r(DIR *folder, struct dirent *into, struct dirent **result)
{
    struct dirent *found = readdir(folder);
    if (found != 0)
        *into = *found;
    *result = found != 0 ? into : 0;
    return 0;
}

void rewinddir(DIR *folder)
{
    read_list(folder);
}

long telldir(DIR *folder)
{
    return folder->place;
}

void seekdir(DIR *folder, long place)
{
    if (place >= 0 && place <= folder->bytes + 2)
        folder->place = place;
}

/* Gives the entries of a folder that are wanted, in order: how many, or -1 with errno. */
static int scan(DIR *folder, struct dirent ***into, int (*wants)(const struct dirent *),
    int (*compare)(const struct dirent **, const struct dirent **))
{
    struct dirent **list = 0, *found;
    int count = 0;
    while ((found = readdir(folder)) != 0) {
        struct dirent **larger, *copy;
        if (wants != 0 && !wants(found))
            continue;
        larger = realloc(list, ((size_t)count + 1) * sizeof *list);
        copy = larger != 0 ? malloc(sizeof *copy) : 0;
        list = larger != 0 ? larger : list;
        if (copy == 0)
            goto no_memory;
        *copy = *found;
        list[count++] = copy;
    }
    if (compare != 0 && count > 0)
        qsort(list, (size_t)count, sizeof *list, (int (*)(const void *, const void *))compare);
    *into = list;
    return count;

no_memory:
    while (count > 0)
        free(list[--count]);
    free(list);
    errno = ENOMEM;
    return -1;
}

int scandir(const char *path, struct dirent ***into, int (*wants)(const struct dirent *),
    int (*compare)(const struct dirent **, const struct dirent **))
{
    DIR *folder = opendir(path);
    int result, error;
    if (folder == 0)
        return -1;
    result = scan(folder, into, wants, compare);
    error = errno;
    closedir(folder);
    errno = error;
    return result;
}

int scandirat(int from, const char *path, struct dirent ***into, int (*wants)(const struct dirent *),
    int (*compare)(const struct dirent **, const struct dirent **))
{
    int fd = openat(from, path, O_RDONLY | O_DIRECTORY), result;
    DIR *folder = fd >= 0 ? fdopendir(fd) : 0;
    if (folder == 0)
        return -1;
    result = scan(folder, into, wants, compare);
    closedir(folder);
    return result;
}

int alphasort(const struct dirent **one, const struct dirent **other)
{
    return strcoll((*one)->d_name, (*other)->d_name);
}

int versionsort(const struct dirent **one, const struct dirent **other)
{
    return strverscmp((*one)->d_name, (*other)->d_name);
}

/* ---- folders made, removed and entered */

/* The name of a folder that is meant by a path, with a slash behind it; or 0 with errno. */
static const char *folder_name(const char *path, char into[NAME_BYTES])
{
    char buffer[NAME_BYTES];
    const char *name = nested_host_has_folders() ? nested_name(path, buffer) : (nested_missing(), (const char *)0);
    if (name == 0)
        return 0;
    if (strlen(name) + 2 > NAME_BYTES) {
        errno = ENAMETOOLONG;
        return 0;
    }
    sprintf(into, "%s/", name);
    return into;
}

int mkdir(const char *path, mode_t mode)
{
    char buffer[NAME_BYTES];
    const char *name = folder_name(path, buffer);
    struct stat found;
    long fd;
    if (name == 0)
        return -1;
    if (stat(path, &found) == 0) {
        errno = EEXIST;
        return -1;
    }
    fd = nested_answer(nested_call(CALL_OPEN, (long)name, O_RDONLY | O_CREAT | O_EXCL, 0777));
    if (fd >= 0)
        nested_call(CALL_CLOSE, fd, 0, 0);
    return fd >= 0 ? 0 : -1;
}

int rmdir(const char *path)
{
    char buffer[NAME_BYTES];
    const char *name = folder_name(path, buffer);
    struct stat found;
    if (name == 0 || stat(path, &found) < 0)
        return -1;
    if (!S_ISDIR(found.st_mode)) {
        errno = ENOTDIR;
        return -1;
    }
    return (int)nested_answer(nested_call(CALL_UNLINK, (long)name, 0, 0));
}

int nested_rename_folder(const char *from, const char *to)
{
    char old_buffer[NAME_BYTES], new_buffer[NAME_BYTES];
    const char *old = folder_name(from, old_buffer), *new = old != 0 ? folder_name(to, new_buffer) : 0;
    return new != 0 ? (int)nested_answer(nested_call(CALL_RENAME, (long)old, (long)new, 0)) : -1;
}

int fchdir(int fd)
{
    const char *path = nested_folder_path(fd);
    return path != 0 ? chdir(path) : -1;
}

/* newlib's interface names this one, which readdir of its own would call. */
int getdents(int fd, void *into, int bytes)
{
    return nested_missing();
}
