/* newlib's own, and jumps that keep the mask of signals. */
#include_next <setjmp.h>

#ifndef NESTED_SETJMP_H
#define NESTED_SETJMP_H

#include <sys/cdefs.h>

#if __POSIX_VISIBLE
#include <sys/_sigset.h>

#ifdef __cplusplus
extern "C" {
#endif

typedef struct {
    jmp_buf __registers;
    int __saves;
    __sigset_t __mask;
} sigjmp_buf[1];

int sigsetjmp(sigjmp_buf into, int saves) __attribute__((__returns_twice__));
void siglongjmp(sigjmp_buf from, int result) __attribute__((__noreturn__));
int _setjmp(jmp_buf into) __attribute__((__returns_twice__));
void _longjmp(jmp_buf from, int result) __attribute__((__noreturn__));

#ifdef __cplusplus
}
#endif

#endif

#endif
