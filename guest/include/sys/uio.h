/* Reads and writes of several rooms. */
#ifndef NESTED_SYS_UIO_H
#define NESTED_SYS_UIO_H

#include <sys/types.h>

#ifdef __cplusplus
extern "C" {
#endif

#define UIO_MAXIOV 1024

struct iovec {
    void *iov_base;
    size_t iov_len;
};

ssize_t readv(int fd, const struct iovec *rooms, int count);
ssize_t writev(int fd, const struct iovec *rooms, int count);
ssize_t preadv(int fd, const struct iovec *rooms, int count, off_t place);
ssize_t pwritev(int fd, const struct iovec *rooms, int count, off_t place);

#ifdef __cplusplus
}
#endif

#endif
