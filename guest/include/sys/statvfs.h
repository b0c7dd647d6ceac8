/* What a disk holds: it is not told, so each function fails with ENOSYS. */
#ifndef NESTED_SYS_STATVFS_H
#define NESTED_SYS_STATVFS_H

#include <sys/types.h>

#ifdef __cplusplus
extern "C" {
#endif

#define ST_RDONLY 1
#define ST_NOSUID 2

struct statvfs {
    unsigned long f_bsize;
    unsigned long f_frsize;
    unsigned long f_blocks;
    unsigned long f_bfree;
    unsigned long f_bavail;
    unsigned long f_files;
    unsigned long f_ffree;
    unsigned long f_favail;
    unsigned long f_fsid;
    unsigned long f_flag;
    unsigned long f_namemax;
};

int statvfs(const char *path, struct statvfs *into);
int fstatvfs(int fd, struct statvfs *into);

#ifdef __cplusplus
}
#endif

#endif
