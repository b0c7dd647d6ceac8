/* Paths that match a pattern, as POSIX has it, by newlib's function, which takes a backslash for a letter and does not say that nothing matches. */
#include <glob.h>
#include <string.h>

int nested_newlib_glob(const char *pattern, int flags, int (*failed)(const char *, int), glob_t *into) __asm__("glob");

int glob(const char *__restrict pattern, int flags, int (*failed)(const char *, int), glob_t *__restrict into)
{
    int before = (flags & GLOB_APPEND) != 0 ? into->gl_pathc : 0;
    int plain = flags & ~(GLOB_NOESCAPE | GLOB_NOCHECK);
    int result = nested_newlib_glob(pattern, (flags & GLOB_NOESCAPE) != 0 ? plain : plain | GLOB_QUOTE, failed, into);
    if (result != 0 || into->gl_pathc != before)
        return result;
    if ((flags & GLOB_NOCHECK) == 0)
        return GLOB_NOMATCH;
    /* the pattern as it stands */
    return nested_newlib_glob(pattern, plain | GLOB_NOCHECK, failed, into);
}
