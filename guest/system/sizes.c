/*
 * Tells at its end which --heap and --stack a run would have done with, where NESTED_SIZES is in the environment.
 * It is told when main has returned or exit was called, before error output is closed.
 */
#include "call.h"

#include <stdlib.h>
#include <string.h>
#include <unistd.h>

#define PAGE 4096u
#define STACK_END 0x7ffff000u           /* docs/GUEST.md: the stack ends where the argument page begins */

extern char _end[];

/* A page can be read where the text at its start can: flags of 3 are refused after the path is looked at, so nothing is opened. */
static int is_readable(unsigned page)
{
    return nested_call(CALL_OPEN, (long)page, 3, 0) != -14;
}

static int is_used(unsigned page)
{
    const unsigned *word = (const unsigned *)page;
    for (unsigned i = 0; i < PAGE / sizeof *word; i++)
        if (word[i] != 0)
            return 1;
    return 0;
}

/* The pages from the stack's end down to the lowest one that does not hold zeros alone. */
static unsigned stack_pages(void)
{
    unsigned most = 1;
    for (unsigned pages = 1; is_readable(STACK_END - pages * PAGE); pages++)
        if (is_used(STACK_END - pages * PAGE))
            most = pages;
    return most;
}

/* The heap begins with the first page past the program. */
static unsigned heap_pages(void)
{
    unsigned long start = ((unsigned long)_end + PAGE - 1) / PAGE * PAGE, now = (unsigned long)nested_call(CALL_SBRK, 0, 0, 0);
    unsigned long most = nested_greatest_break > now ? nested_greatest_break : now;
    return (most - start + PAGE - 1) / PAGE;
}

static void put(const char *text)
{
    nested_call(CALL_WRITE, STDERR_FILENO, (long)text, (long)strlen(text));
}

void nested_tell_sizes(void)
{
    char digits[DIGITS_BYTES];
    put("used: --heap ");
    put(nested_digits(heap_pages(), digits));
    put(" --stack ");
    put(nested_digits(stack_pages(), digits));
    put("\n");
}
