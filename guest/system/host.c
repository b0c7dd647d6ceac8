/* Files that a host in Java answers: how they are read. */
#include "call.h"
#include "host.h"

#include <errno.h>
#include <fcntl.h>
#include <string.h>

long nested_host_read(const char *name, void *into, size_t bytes)
{
    long descriptor = nested_call(CALL_OPEN, (long)name, O_RDONLY, 0), got = 0, all = 0;
    if (descriptor < 0)
        return descriptor;
    while ((size_t)all < bytes && (got = nested_call(CALL_READ, descriptor, (long)into + all, (long)bytes - all)) > 0)
        all += got;
    nested_call(CALL_CLOSE, descriptor, 0, 0);
    return got < 0 ? got : all;
}

unsigned long nested_host_word(const unsigned char *from)
{
    return (unsigned long)from[0] << 24 | (unsigned long)from[1] << 16 | (unsigned long)from[2] << 8 | from[3];
}

long long nested_host_long(const unsigned char *from)
{
    return (long long)nested_host_word(from) << 32 | nested_host_word(from + 4);
}

struct timespec nested_host_time(const unsigned char *from)
{
    struct timespec made = { nested_host_long(from), (long)nested_host_word(from + 8) };
    return made;
}

int nested_host_has_folders(void)
{
    static int answer;                  /* 1 more than what the host said */
    char first;
    if (answer == 0)
        answer = 1 + (nested_host_read(HOST_FOLDER, &first, 1) >= 0);
    return answer - 1;
}

const char *nested_host_name(const char *prefix, const char *rest, char *into)
{
    size_t bytes = strlen(prefix);
    if (bytes + strlen(rest) >= NAME_BYTES) {
        errno = ENAMETOOLONG;
        return 0;
    }
    memcpy(into, prefix, bytes);
    strcpy(into + bytes, rest);
    return into;
}
