/* newlib's own, and advice about files. */
#include_next <fcntl.h>

#ifndef NESTED_FCNTL_H
#define NESTED_FCNTL_H

#define POSIX_FADV_NORMAL 0
#define POSIX_FADV_RANDOM 1
#define POSIX_FADV_SEQUENTIAL 2
#define POSIX_FADV_WILLNEED 3
#define POSIX_FADV_DONTNEED 4
#define POSIX_FADV_NOREUSE 5

#ifdef __cplusplus
extern "C" {
#endif

int posix_fadvise(int fd, off_t place, off_t bytes, int advice);
int posix_fallocate(int fd, off_t place, off_t bytes);

#ifdef __cplusplus
}
#endif

#endif
