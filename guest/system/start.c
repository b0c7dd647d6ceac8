/* How a program begins and ends. */
#include "call.h"

#include <errno.h>
#include <stdlib.h>
#include <unistd.h>

typedef void function(void);

extern int main(int argc, char **argv, char **environment);
extern char **environ;

/* The linker lists constructors and destructors between these. */
extern function *__preinit_array_start[], *__preinit_array_end[];
extern function *__init_array_start[], *__init_array_end[];
extern function *__fini_array_start[], *__fini_array_end[];

/* C++ names the program that registers a destructor by this; there is one. */
void *__dso_handle;

char *program_invocation_name = "", *program_invocation_short_name = "";

const char *getprogname(void)
{
    return program_invocation_short_name;
}

void setprogname(const char *name)
{
    program_invocation_name = program_invocation_short_name = (char *)name;
    for (; *name != 0; name++)
        if (*name == '/')
            program_invocation_short_name = (char *)name + 1;
}

long nested_answer(long answer)
{
    if (answer < 0 && answer > -4096) {
        errno = (int)-answer;
        return -1;
    }
    return answer;
}

int nested_missing(void)
{
    errno = ENOSYS;
    return -1;
}

static void run(function **from, function **to)
{
    while (from < to)
        (*from++)();
}

static void run_destructors(void)
{
    function **last = __fini_array_end;
    while (last > __fini_array_start)
        (*--last)();
}

void nested_start(int argc, char **argv)
{
    nested_environment(&argc, &argv);
    if (argc > 0)
        setprogname(argv[0]);
    if (getenv("NESTED_SIZES") != 0)
        atexit(nested_tell_sizes);      /* registered first, so that it is run last */
    if (&__fini_array_end[0] > &__fini_array_start[0])
        atexit(run_destructors);
    run(__preinit_array_start, __preinit_array_end);
    run(__init_array_start, __init_array_end);
    exit(main(argc, argv, environ));
}

void _exit(int status)
{
    for (;;)
        nested_call(CALL_EXIT, status, 0, 0);
}
