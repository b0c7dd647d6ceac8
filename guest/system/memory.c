/* The heap: what malloc takes its memory from. */
#include "call.h"

#include <unistd.h>

unsigned long nested_greatest_break;

/* A break lies below 80000000 (hexadecimal), so an answer below 0 is a refusal. */
void *sbrk(ptrdiff_t bytes)
{
    long before = nested_answer(nested_call(CALL_SBRK, bytes, 0, 0));
    if (before != -1 && (unsigned long)(before + bytes) > nested_greatest_break)
        nested_greatest_break = (unsigned long)(before + bytes);
    return (void *)before;
}

int brk(void *end)
{
    return sbrk((char *)end - (char *)sbrk(0)) == (void *)-1 ? -1 : 0;
}

int getpagesize(void)
{
    return 4096;
}
