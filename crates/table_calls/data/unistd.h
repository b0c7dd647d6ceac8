/* What the programs need of unistd.h, by the system's own calls, where there is no C library. start.s has syscall3. */
int syscall3(int number, int a, int b, int c);

static inline int read(int descriptor, void *place, unsigned bytes)
{
    return syscall3(4, descriptor, (int)place, (int)bytes);
}

static inline int write(int descriptor, const void *place, unsigned bytes)
{
    return syscall3(5, descriptor, (int)place, (int)bytes);
}
