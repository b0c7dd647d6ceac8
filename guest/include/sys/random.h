/* Bytes that nobody can guess, from /dev/urandom. */
#ifndef NESTED_SYS_RANDOM_H
#define NESTED_SYS_RANDOM_H

#include <sys/types.h>

#ifdef __cplusplus
extern "C" {
#endif

#define GRND_NONBLOCK 1
#define GRND_RANDOM 2

ssize_t getrandom(void *into, size_t bytes, unsigned flags);
int getentropy(void *into, size_t bytes);

#ifdef __cplusplus
}
#endif

#endif
