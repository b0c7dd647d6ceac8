/* newlib's own, and the order of bytes, which programs look for here. */
#ifndef NESTED_SYS_PARAM_H
#define NESTED_SYS_PARAM_H

#include_next <sys/param.h>
#include <limits.h>
#include <endian.h>

#ifndef MAXPATHLEN
#define MAXPATHLEN PATH_MAX
#endif
#ifndef MAXSYMLINKS
#define MAXSYMLINKS 8
#endif
#ifndef MIN
#define MIN(a, b) ((a) < (b) ? (a) : (b))
#endif
#ifndef MAX
#define MAX(a, b) ((a) > (b) ? (a) : (b))
#endif
#ifndef howmany
#define howmany(x, y) (((x) + ((y) - 1)) / (y))
#endif
#ifndef roundup
#define roundup(x, y) ((((x) + ((y) - 1)) / (y)) * (y))
#endif

#endif
