/* newlib's own, and the program's name as GNU has it. */
#include_next <errno.h>

#ifndef NESTED_ERRNO_H
#define NESTED_ERRNO_H

#include <sys/features.h>

#if __GNU_VISIBLE
#ifdef __cplusplus
extern "C" {
#endif

extern char *program_invocation_name, *program_invocation_short_name;

#ifdef __cplusplus
}
#endif
#endif

#endif
