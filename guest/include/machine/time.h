/* clock and times count microseconds. */
#define _CLOCKS_PER_SEC_ 1000000
