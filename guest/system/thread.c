/*
 * The variables of the thread, as C++ has them (thread_local). Code finds them from a word, __nested_thread, in whose place the compiler would ask the
 * processor (thread.s). A program without such variables does not name it, and has nothing of this file.
 */
#include <elf.h>
#include <malloc.h>
#include <stddef.h>
#include <stdlib.h>
#include <string.h>

extern const Elf32_Ehdr __ehdr_start;

/* So far behind the first variable, as the System V ABI of MIPS has it. */
#define THREAD_OFFSET 0x7000

char *__nested_thread;

/* Before all other constructors. */
__attribute__((constructor(101))) static void begin_thread(void)
{
    const Elf32_Phdr *header = (const Elf32_Phdr *)((const char *)&__ehdr_start + __ehdr_start.e_phoff);
    char *variables;
    while (header->p_type != PT_TLS)
        header++;
    variables = memalign(header->p_align, header->p_memsz);
    if (variables == NULL)
        abort();
    memcpy(variables, (const void *)header->p_vaddr, header->p_filesz);
    memset(variables + header->p_filesz, 0, header->p_memsz - header->p_filesz);
    __nested_thread = variables + THREAD_OFFSET;
}
