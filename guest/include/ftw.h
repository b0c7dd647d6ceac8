/* Walks through a folder and what is in it. */
#ifndef NESTED_FTW_H
#define NESTED_FTW_H

#include <sys/stat.h>

#ifdef __cplusplus
extern "C" {
#endif

#define FTW_F 0
#define FTW_D 1
#define FTW_DNR 2
#define FTW_NS 3
#define FTW_SL 4
#define FTW_DP 5
#define FTW_SLN 6

#define FTW_PHYS 1
#define FTW_MOUNT 2
#define FTW_CHDIR 4
#define FTW_DEPTH 8

struct FTW {
    int base;
    int level;
};

int ftw(const char *path, int (*visit)(const char *path, const struct stat *found, int kind), int descriptors);
int nftw(const char *path, int (*visit)(const char *path, const struct stat *found, int kind, struct FTW *place), int descriptors,
    int flags);

#ifdef __cplusplus
}
#endif

#endif
