/* Mounted file systems: there is no list of them, and none is told. */
#include <errno.h>
#include <mntent.h>
#include <string.h>
#include <sys/statfs.h>

#pragma GCC diagnostic ignored "-Wunused-parameter"

FILE *setmntent(const char *path, const char *mode)
{
    return fopen(path, mode);
}

struct mntent *getmntent_r(FILE *file, struct mntent *into, char *text, int bytes)
{
    return NULL;
}

struct mntent *getmntent(FILE *file)
{
    return NULL;
}

int addmntent(FILE *file, const struct mntent *entry)
{
    errno = EROFS;
    return 1;
}

int endmntent(FILE *file)
{
    if (file != NULL)
        fclose(file);
    return 1;
}

char *hasmntopt(const struct mntent *entry, const char *option)
{
    size_t bytes = strlen(option);
    for (char *place = entry->mnt_opts; (place = strstr(place, option)) != NULL; place += bytes)
        if ((place == entry->mnt_opts || place[-1] == ',') && (place[bytes] == 0 || place[bytes] == ',' || place[bytes] == '='))
            return place;
    return NULL;
}

int statfs(const char *path, struct statfs *into)
{
    errno = ENOSYS;
    return -1;
}

int fstatfs(int fd, struct statfs *into)
{
    errno = ENOSYS;
    return -1;
}
