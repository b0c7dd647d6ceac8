/* newlib's own names types of <sys/types.h>. */
#include <sys/types.h>
#include_next <regex.h>
