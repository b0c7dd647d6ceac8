/* The same as <sys/statfs.h>. */
#include <sys/statfs.h>
