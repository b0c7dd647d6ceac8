/* Bytes from one file to another. */
#ifndef NESTED_SYS_SENDFILE_H
#define NESTED_SYS_SENDFILE_H

#include <sys/types.h>

#ifdef __cplusplus
extern "C" {
#endif

ssize_t sendfile(int to, int from, off_t *place, size_t bytes);

#ifdef __cplusplus
}
#endif

#endif
