/* Loading of code: there is none, and dlerror says so once behind each failure. */
#include "call.h"

#include <dlfcn.h>
#include <execinfo.h>
#include <stddef.h>

#pragma GCC diagnostic ignored "-Wunused-parameter"

static const char *message;

static void *no_code(void)
{
    message = "a guest program loads no code";
    return 0;
}

void *dlopen(const char *path, int mode)
{
    return no_code();
}

void *dlsym(void *library, const char *name)
{
    return no_code();
}

void *dlvsym(void *library, const char *name, const char *version)
{
    return no_code();
}

int dlclose(void *library)
{
    no_code();
    return -1;
}

char *dlerror(void)
{
    const char *told = message;
    message = 0;
    return (char *)told;
}

int dladdr(const void *address, Dl_info *into)
{
    return 0;
}

int backtrace(void **into, int most)
{
    return 0;
}

char **backtrace_symbols(void *const *addresses, int count)
{
    return 0;
}

void backtrace_symbols_fd(void *const *addresses, int count, int fd)
{
}
