/*
 * Files that a host in Java answers (docs/HOST.md): a clock, random bytes, the environment, folders. Elsewhere they are not there, and the library
 * goes on without them. Their names begin with /dev/nested/, and their numbers have the most significant byte first.
 */
#ifndef NESTED_HOST_H
#define NESTED_HOST_H

#include <stddef.h>
#include <time.h>

#define HOST_ENVIRONMENT "/dev/nested/environment"
#define HOST_CLOCK "/dev/nested/clock"
#define HOST_SLEEP "/dev/nested/sleep/"
#define HOST_FOLDER "/dev/nested/folder"
#define HOST_STATUS "/dev/nested/status/"
#define HOST_LIST "/dev/nested/list/"
#define HOST_DESCRIPTOR "/dev/nested/descriptor/"

/* Reads at most so many bytes from the start of a file of the host: how many, or the call's refusal, as -ENOENT where there is no such file. */
long nested_host_read(const char *name, void *into, size_t bytes);

/* A number of 4 or 8 bytes, and a time: seconds in 8 bytes and nanoseconds in 4. */
#define HOST_TIME_BYTES 12
unsigned long nested_host_word(const unsigned char *from);
long long nested_host_long(const unsigned char *from);
struct timespec nested_host_time(const unsigned char *from);

/* Whether the host answers folders. It is asked once. */
int nested_host_has_folders(void);

/* The host's name for what stands behind a prefix, in `into`, or 0 with errno where it is too long for a path. */
const char *nested_host_name(const char *prefix, const char *rest, char *into);

#endif
