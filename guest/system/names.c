/*
 * Paths. To the system a file's name is bytes, so x, ./x and /x would be three files. Here they are one: a path is taken apart at its slashes from
 * the working folder on, and put together without empty parts and dots.
 *
 * The folder in which the run began has the empty name, and what is in it has a name without a slash in front. It is / to the program, unless a host
 * says that its own files are all there: then it has the path that it has there, and what is elsewhere has its whole path for a name.
 *
 * A path that is the name of a file as it stands means that file where no other does. So what `nested --with` and `--keep` name is found by that
 * name, be it /etc/hosts or ../x. A name with a slash behind it is that of no file: by it hosts know a folder.
 */
#include "call.h"
#include "host.h"

#include <errno.h>
#include <fcntl.h>
#include <limits.h>
#include <stdlib.h>
#include <string.h>
#include <sys/stat.h>
#include <unistd.h>

/* The path of the folder in which the run began, and that of the working folder. Both begin with a slash, and only / ends in one. */
static char start[PATH_MAX], folder[PATH_MAX];

static void find_start(void)
{
    long bytes = *start != 0 ? -1 : nested_host_has_folders() ? nested_host_read(HOST_FOLDER, start, sizeof start - 1) : 0;
    if (bytes < 0)
        return;
    start[bytes] = 0;
    if (*start != '/')
        strcpy(start, "/");
    strcpy(folder, start);
}

static int is_file(const char *name)
{
    long descriptor = nested_call(CALL_OPEN, (long)name, O_RDONLY, 0);
    if (descriptor >= 0)
        nested_call(CALL_CLOSE, descriptor, 0, 0);
    return descriptor >= 0;
}

/* Cuts the last part off a path of so many bytes. The bytes that are left. */
static int without_last(const char *path, int bytes)
{
    while (bytes > 1 && path[bytes - 1] != '/')
        bytes--;
    return bytes > 1 ? bytes - 1 : bytes;
}

/* Whether nothing can be cut off a path of so many bytes: it is /, or ends in a part .. itself. */
static int is_top(const char *path, int bytes)
{
    return bytes == 1 || (bytes >= 3 && memcmp(path + bytes - 3, "/..", 3) == 0);
}

/*
 * Appends the parts of a path to a whole one of so many bytes: the bytes of both, or -1 where they are too many. A part .. at the top stays there, or
 * is kept, since `nested --with ../x` gives a file of that name.
 */
static int append(char into[PATH_MAX], int bytes, const char *path, int keeps_up)
{
    while (*path) {
        int part = (int)strcspn(path, "/");
        if (part == 2 && path[0] == '.' && path[1] == '.' && !(keeps_up && is_top(into, bytes))) {
            bytes = without_last(into, bytes);
        } else if (part > 0 && !(part == 1 && *path == '.')) {
            if (bytes + 1 + part >= PATH_MAX)
                return -1;
            if (bytes > 1)
                into[bytes++] = '/';
            memcpy(into + bytes, path, (size_t)part);
            bytes += part;
        }
        path += part + (path[part] == '/');
    }
    into[bytes] = 0;
    return bytes;
}

int nested_whole_path(const char *path, char into[PATH_MAX])
{
    int bytes;
    find_start();
    if (path == 0 || *path == 0) {
        errno = path == 0 ? EFAULT : ENOENT;
        return -1;
    }
    strcpy(into, *path == '/' ? "/" : folder);
    bytes = append(into, (int)strlen(into), path, *path != '/' && !nested_host_has_folders());
    if (bytes < 0)
        errno = ENAMETOOLONG;
    return bytes;
}

/* The name of a whole path: what is behind the start, and elsewhere the path itself. */
static const char *name_of(const char *whole)
{
    size_t bytes = strlen(start);
    if (bytes == 1)
        return whole + 1;
    if (strncmp(whole, start, bytes) != 0 || (whole[bytes] != 0 && whole[bytes] != '/'))
        return whole;
    return whole + bytes + (whole[bytes] == '/');
}

const char *nested_name(const char *path, char into[NAME_BYTES])
{
    char whole[PATH_MAX];
    const char *name;
    int is_fixed;
    if (nested_whole_path(path, whole) < 0)
        return 0;
    name = name_of(whole);
    is_fixed = (*path == '/' || strcmp(folder, start) == 0) && path[strlen(path) - 1] != '/';
    if (is_fixed && strcmp(name, path) != 0 && !is_file(name) && is_file(path))
        return path;
    if (strlen(name) >= NAME_BYTES) {
        errno = ENAMETOOLONG;
        return 0;
    }
    return strcpy(into, name);
}

int chdir(const char *path)
{
    char whole[PATH_MAX];
    struct stat found;
    if (nested_whole_path(path, whole) < 0)
        return -1;
    if (stat(path, &found) < 0) {
        if (nested_host_has_folders() || errno != ENOENT)
            return -1;
    } else if (!S_ISDIR(found.st_mode)) {
        errno = ENOTDIR;
        return -1;
    }
    strcpy(folder, whole);
    return 0;
}

char *getcwd(char *into, size_t bytes)
{
    size_t wanted;
    find_start();
    wanted = strlen(folder) + 1;
    if (into == 0 && bytes == 0)
        bytes = wanted;
    if (bytes < wanted) {
        errno = ERANGE;
        return 0;
    }
    if (into == 0 && (into = malloc(bytes)) == 0)
        return 0;
    return strcpy(into, folder);
}

/*
 * The numbers of files. The system tells none, but each file that stat is asked for has a name here, so a name is given a number
 * when it is first seen. It goes with the file when that is renamed, and is not given again when it is unlinked.
 */
struct numbered {
    struct numbered *next;
    unsigned short number;
    char name[];
};

static struct numbered *first;

static struct numbered **place_of(const char *name)
{
    struct numbered **place = &first;
    while (*place != 0 && strcmp((*place)->name, name) != 0)
        place = &(*place)->next;
    return place;
}

static unsigned short numbered(const char *name, unsigned short number)
{
    struct numbered *made = malloc(sizeof *made + strlen(name) + 1);
    if (made == 0)
        return 0;
    made->number = number;
    strcpy(made->name, name);
    made->next = first;
    first = made;
    return number;
}

unsigned short nested_number(const char *name)
{
    static unsigned short last;
    struct numbered *found = *place_of(name);
    return found != 0 ? found->number : numbered(name, ++last);
}

void nested_unlinked(const char *name)
{
    struct numbered **place = place_of(name), *found = *place;
    if (found == 0)
        return;
    *place = found->next;
    free(found);
}

void nested_renamed(const char *from, const char *to)
{
    struct numbered *found = *place_of(from);
    unsigned short number = found != 0 ? found->number : 0;
    if (strcmp(from, to) == 0)
        return;
    nested_unlinked(to);
    nested_unlinked(from);
    if (number != 0)
        numbered(to, number);
}
