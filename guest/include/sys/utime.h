/* utime: files have no times, so it does nothing to a file that is there. */
#ifndef NESTED_SYS_UTIME_H
#define NESTED_SYS_UTIME_H

#include <sys/types.h>

#ifdef __cplusplus
extern "C" {
#endif

struct utimbuf {
    time_t actime;
    time_t modtime;
};

int utime(const char *path, const struct utimbuf *times);

#ifdef __cplusplus
}
#endif

#endif
