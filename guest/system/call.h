/* The calls of docs/CALLS.md, and what the files of this folder share. */
#ifndef NESTED_CALL_H
#define NESTED_CALL_H

#include <limits.h>
#include <stddef.h>

struct stat;

enum {
    CALL_EXIT = 1,
    CALL_OPEN,
    CALL_CLOSE,
    CALL_READ,
    CALL_WRITE,
    CALL_LSEEK,
    CALL_SBRK,
    CALL_FSTAT,
    CALL_UNLINK,
    CALL_DUP,
    CALL_FTRUNCATE,
    CALL_GETPID,
    CALL_TIME,
    CALL_RENAME,
    CALL_ISATTY
};

/* The system has so many descriptors, and a name so many bytes at most, its zero included. */
#define DESCRIPTORS 64
#define NAME_BYTES 256

/* One call: its answer, negative where it is refused. SYSCALL changes no register but $2. */
static inline long nested_call(long number, long a0, long a1, long a2)
{
    register long r2 __asm__("$2") = number;
    register long r4 __asm__("$4") = a0;
    register long r5 __asm__("$5") = a1;
    register long r6 __asm__("$6") = a2;
    __asm__ volatile("syscall" : "+r"(r2) : "r"(r4), "r"(r5), "r"(r6) : "memory");
    return r2;
}

/* An answer as C has it: a refusal becomes -1 and its number, which is newlib's own, errno. */
long nested_answer(long answer);

/* Fails with ENOSYS: there is no such call. */
int nested_missing(void);

/* The name of the file that a path means, in `into` or the path itself, or 0 with errno. The folder of the run's start has the empty name. */
const char *nested_name(const char *path, char into[NAME_BYTES]);

/* The path from / on that a path means, without dots: its bytes, or -1 with errno. */
int nested_whole_path(const char *path, char into[PATH_MAX]);

/* Opens the list of a folder: a descriptor, or -1 with errno. */
int nested_open_list(const char *name);
int nested_rename_folder(const char *from, const char *to);

/* The whole path of an open folder, or 0 with errno; it is kept while the folder is open, and freed. */
const char *nested_folder_path(int fd);
void nested_set_folder_path(int fd, char *path);

/* What a host tells of a file or folder of this name, in addition to what is there: whether it told. -1 is a refusal, with errno. */
int nested_host_stat(const char *prefix, const char *name, struct stat *into);

/* What poll answers of a descriptor that is in use. */
int nested_ready(int fd);

/* Random bytes: from the host, or else from the generator that the environment has a seed for. 0, or -1 with errno. */
int nested_random(void *into, size_t bytes);
int nested_has_seed(void);

/* The number by which stat tells files apart, and how it goes with renamed and unlinked ones. */
unsigned short nested_number(const char *name);
void nested_renamed(const char *from, const char *to);
void nested_unlinked(const char *name);

/* Takes the environment, where the words begin with one, out of the arguments. */
void nested_environment(int *argc, char ***argv);

/* The decimal digits of a number, in `into`: where they begin. Programs have functions of their own with the names that newlib's are linked with. */
#define DIGITS_BYTES 12
const char *nested_digits(unsigned number, char into[DIGITS_BYTES]);

/* The greatest break that sbrk made, and what writes to error output which --heap and --stack this run would have done with. */
extern unsigned long nested_greatest_break;
void nested_tell_sizes(void);

/* Ends the run as a shell shows a program that this signal ended. */
_Noreturn void nested_killed(int signal);

#endif
