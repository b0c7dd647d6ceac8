/* Makes calls on Linux, one after the other: linux_calls SCRIPT RESULTS. It is for x86-64 and stands alone, without a C library, so that the heap and
 * the descriptors are its own.
 *
 * SCRIPT has two words, of which the first is 1 where words in memory are little-endian and the second counts the calls; the bytes of the memory
 * that may be written, and of the one that may be read alone; and five words for each call, its number and four arguments, all of them as
 * docs/CALLS.md has them. RESULTS gets a word for each answer and the bytes of the first memory. */

typedef unsigned int word;
typedef unsigned long size;

enum { READ, WRITE, OPEN, CLOSE, FSTAT = 5, LSEEK = 8, MMAP, BRK = 12, IOCTL = 16, PIPE = 22, DUP = 32, DUP2, EXIT = 60, FTRUNCATE = 77, RENAME = 82,
       UNLINK = 87, SETRLIMIT = 160 };
enum { WRITABLE = 0x10000000, WRITABLE_BYTES = 0x4000, READABLE = 0x20000000, READABLE_BYTES = 0x1000 };
enum { MOST_CALLS = 4096, PIPE_OUT = 200, PIPE_IN, RESULTS };

static struct {
    word head[2];
    word calls[MOST_CALLS][5];
} script;
static int results[MOST_CALLS];
static long heap_start, heap_end;

static long call(long number, long a, long b, long c, long d, long e, long f)
{
    register long r10 __asm__("r10") = d, r8 __asm__("r8") = e, r9 __asm__("r9") = f;
    long answer;
    __asm__ volatile("syscall"
                     : "=a"(answer)
                     : "a"(number), "D"(a), "S"(b), "d"(c), "r"(r10), "r"(r8), "r"(r9)
                     : "rcx", "r11", "memory");
    return answer;
}

static long call3(long number, long a, long b, long c)
{
    return call(number, a, b, c, 0, 0, 0);
}

/* the flags of open: access, append, create, truncate, exclusive */
static long flags_of(word flags)
{
    return (flags & 3) | (flags & 0x8 ? 02000 : 0) | (flags & 0x200 ? 0100 : 0) | (flags & 0x400 ? 01000 : 0) | (flags & 0x800 ? 0200 : 0);
}

/* the four words of fstat, of which the kind and the length are Linux's; they go through a pipe, so that a bad address is told and does not end
 * this program */
static long status(int descriptor, word place)
{
    struct {
        long device, inode, links;
        word mode, user, group, padding;
        long special, bytes;
        char rest[88];
    } found;
    long answer = call3(FSTAT, descriptor, (long)&found, 0);
    if (answer)
        return answer;
    int is_file = (found.mode & 0170000) == 0100000;
    word words[4] = { is_file ? 1 : 2, is_file ? found.bytes : 0, is_file ? (found.bytes + 4095) / 4096 : 0, 4096 };
    for (int i = 0; i < 4 && !script.head[0]; i++)
        words[i] = __builtin_bswap32(words[i]);
    call3(WRITE, PIPE_IN, (long)words, 16);
    answer = call3(READ, PIPE_OUT, place, 16);
    if (answer < 0)
        call3(READ, PIPE_OUT, (long)words, 16);
    return answer < 0 ? answer : 0;
}

static long move_break(int delta)
{
    long wanted = heap_end + delta, before = heap_end;
    if (call3(BRK, wanted, 0, 0) != wanted)
        return -12;
    heap_end = wanted;
    return before - heap_start;
}

static long answer_of(const word *c)
{
    char settings[64];
    long answer;
    switch (c[0]) {
    case 2: return call3(OPEN, c[1], flags_of(c[2]), 0644);
    case 3: return call3(CLOSE, (int)c[1], 0, 0);
    case 4: return call3(READ, (int)c[1], c[2], c[3]);
    case 5: return call3(WRITE, (int)c[1], c[2], c[3]);
    case 6: return call3(LSEEK, (int)c[1], (int)c[2], (int)c[3]);
    case 7: return move_break((int)c[1]);
    case 8: return status((int)c[1], c[2]);
    case 9: return call3(UNLINK, c[1], 0, 0);
    case 10: return call3(DUP, (int)c[1], 0, 0);
    case 11: return call3(FTRUNCATE, (int)c[1], (int)c[2], 0);
    case 14: return call3(RENAME, c[1], c[2], 0);
    default:
        /* isatty: TCGETS, which is no call of what is no terminal */
        answer = call3(IOCTL, (int)c[1], 0x5401, (long)settings);
        return answer == -25 ? 0 : answer == 0 ? 1 : answer;
    }
}

static void load(int from, void *to, long bytes)
{
    while (bytes > 0) {
        long got = call3(READ, from, (long)to, bytes);
        if (got <= 0)
            call3(EXIT, 2, 0, 0);
        to = (char *)to + got;
        bytes -= got;
    }
}

static void map(long address, long bytes, int from, int protection)
{
    /* private, fixed and without a file */
    if (call(MMAP, address, bytes, 3, 0x32, -1, 0) != address)
        call3(EXIT, 3, 0, 0);
    load(from, (void *)address, bytes);
    call3(10, address, bytes, protection);
}

static void limit(int what, size most)
{
    size both[2] = { most, most };
    call3(SETRLIMIT, what, (long)both, 0);
}

__attribute__((used)) static void run(char **words)
{
    int pipe[2], from = call3(OPEN, (long)words[1], 0, 0), to = call3(OPEN, (long)words[2], 01101, 0644);
    load(from, script.head, 8);
    map(WRITABLE, WRITABLE_BYTES, from, 3);
    map(READABLE, READABLE_BYTES, from, 1);
    load(from, script.calls, 20 * script.head[1]);
    call3(CLOSE, from, 0, 0);
    call3(PIPE, (long)pipe, 0, 0);
    call3(DUP2, pipe[0], PIPE_OUT, 0);
    call3(DUP2, pipe[1], PIPE_IN, 0);
    call3(DUP2, to, RESULTS, 0);
    for (int i = 3; i < PIPE_OUT; i++)
        call3(CLOSE, i, 0, 0);
    /* 64 descriptors, and a heap of about 1 MiB */
    limit(7, 64);
    heap_start = heap_end = call3(BRK, 0, 0, 0);
    limit(2, 0x140000);
    for (word i = 0; i < script.head[1]; i++)
        results[i] = answer_of(script.calls[i]);
    call3(WRITE, RESULTS, (long)results, 4 * script.head[1]);
    call3(WRITE, RESULTS, WRITABLE, WRITABLE_BYTES);
    call3(EXIT, 0, 0, 0);
}

__asm__(".globl _start\n_start:\n\tlea 8(%rsp), %rdi\n\tand $-16, %rsp\n\tcall run\n");
