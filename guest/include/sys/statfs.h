/* What a file system holds, as Linux tells it. A guest is not told: statfs fails with ENOSYS, as statvfs does. */
#ifndef NESTED_SYS_STATFS_H
#define NESTED_SYS_STATFS_H

#include <sys/types.h>

typedef struct {
    int __val[2];
} fsid_t;

struct statfs {
    unsigned long f_type;
    unsigned long f_bsize;
    unsigned long f_frsize;
    unsigned long long f_blocks;
    unsigned long long f_bfree;
    unsigned long long f_files;
    unsigned long long f_ffree;
    unsigned long long f_bavail;
    fsid_t f_fsid;
    unsigned long f_namelen;
    unsigned long f_flags;
};

#ifdef __cplusplus
extern "C" {
#endif

int statfs(const char *path, struct statfs *into);
int fstatfs(int fd, struct statfs *into);

#ifdef __cplusplus
}
#endif

#endif
