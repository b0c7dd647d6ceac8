/* The system calls of docs/CALLS.md, as far as the guests of this folder make them. */
enum { EXIT = 1, OPEN = 2, CLOSE = 3, READ = 4, WRITE = 5, SBRK = 7, UNLINK = 9, DUP = 10, TIME = 13, RENAME = 14 };
enum { FOR_READING = 0, FOR_WRITING = 1, CREATE = 0x200, TRUNCATE = 0x400 };

/* makes a call with three words (start.s) */
int syscall3(int number, int a, int b, int c);
