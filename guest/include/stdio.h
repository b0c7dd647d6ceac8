/* newlib's own, and lines of any length, which it has under other names. */
#include_next <stdio.h>

#ifndef NESTED_STDIO_H
#define NESTED_STDIO_H

#ifdef __cplusplus
extern "C" {
#endif

#if __POSIX_VISIBLE >= 200809
ssize_t getline(char **line, size_t *room, FILE *from);
ssize_t getdelim(char **text, size_t *room, int end, FILE *from);
#endif

#ifdef __cplusplus
}
#endif

#endif
