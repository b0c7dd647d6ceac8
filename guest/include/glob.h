/* newlib's own, and what POSIX says of patterns that match nothing and of backslashes. */
#include_next <glob.h>

#ifndef NESTED_GLOB_H
#define NESTED_GLOB_H

#define GLOB_NOESCAPE 0x2000
#define GLOB_NOMATCH (-3)
#define GLOB_NOSYS (-4)
#define GLOB_ABORTED GLOB_ABEND

#ifdef __cplusplus
extern "C" {
#endif

/* newlib's has this name too, so this one has another to the linker. */
int glob(const char *__restrict pattern, int flags, int (*failed)(const char *, int), glob_t *__restrict into) __asm__("nested_glob");

#ifdef __cplusplus
}
#endif

#endif
