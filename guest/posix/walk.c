/* Walks through a folder and what is in it. */
#include "call.h"

#include <dirent.h>
#include <errno.h>
#include <ftw.h>
#include <limits.h>
#include <stdio.h>
#include <string.h>

typedef int visitor(const char *path, const struct stat *found, int kind, struct FTW *place);

struct walk {
    visitor *visit;
    int flags;
    char path[PATH_MAX + 1];
};

static int walk_from(struct walk *walk, int level);

/* Visits what is in the folder of the walk's path, to which it appends each name for a while. */
static int walk_in(struct walk *walk, DIR *folder, int level)
{
    size_t bytes = strlen(walk->path);
    struct dirent *entry;
    int result = 0;
    while (result == 0 && (entry = readdir(folder)) != 0) {
        if (strcmp(entry->d_name, ".") == 0 || strcmp(entry->d_name, "..") == 0)
            continue;
        if (bytes + strlen(entry->d_name) + 2 > sizeof walk->path) {
            errno = ENAMETOOLONG;
            return -1;
        }
        sprintf(walk->path + bytes, "%s%s", bytes > 0 && walk->path[bytes - 1] == '/' ? "" : "/", entry->d_name);
        result = walk_from(walk, level + 1);
        walk->path[bytes] = 0;
    }
    return result;
}

static int walk_from(struct walk *walk, int level)
{
    const char *slash = strrchr(walk->path, '/');
    struct FTW place = { slash != 0 && slash[1] != 0 ? (int)(slash + 1 - walk->path) : 0, level };
    struct stat found;
    DIR *folder;
    int result;
    memset(&found, 0, sizeof found);
    if (stat(walk->path, &found) < 0)
        return walk->visit(walk->path, &found, FTW_NS, &place);
    if (!S_ISDIR(found.st_mode))
        return walk->visit(walk->path, &found, FTW_F, &place);
    folder = opendir(walk->path);
    if (folder == 0)
        return walk->visit(walk->path, &found, FTW_DNR, &place);
    result = walk->flags & FTW_DEPTH ? 0 : walk->visit(walk->path, &found, FTW_D, &place);
    if (result == 0)
        result = walk_in(walk, folder, level);
    closedir(folder);
    if (result == 0 && (walk->flags & FTW_DEPTH) != 0)
        result = walk->visit(walk->path, &found, FTW_DP, &place);
    return result;
}

/* FTW_CHDIR is not heeded: each path is from where the program stands. */
int nftw(const char *path, visitor *visit, int descriptors, int flags)
{
    struct walk walk = { visit, flags, "" };
    (void)descriptors;
    if (strlen(path) > PATH_MAX) {
        errno = ENAMETOOLONG;
        return -1;
    }
    strcpy(walk.path, path);
    return walk_from(&walk, 0);
}

static int (*simple_visit)(const char *path, const struct stat *found, int kind);

static int visit_simply(const char *path, const struct stat *found, int kind, struct FTW *place)
{
    (void)place;
    return simple_visit(path, found, kind);
}

int ftw(const char *path, int (*visit)(const char *path, const struct stat *found, int kind), int descriptors)
{
    int (*before)(const char *path, const struct stat *found, int kind) = simple_visit;
    int result;
    simple_visit = visit;
    result = nftw(path, visit_simply, descriptors, 0);
    simple_visit = before;
    return result;
}
