/* newlib's own, and moments of UTC and of C11. */
#include_next <time.h>

#ifndef NESTED_TIME_H
#define NESTED_TIME_H

#define TIME_UTC 1

#ifdef __cplusplus
extern "C" {
#endif

#if __BSD_VISIBLE
time_t timegm(struct tm *parts);
time_t timelocal(struct tm *parts);
#endif
#if __MISC_VISIBLE || __XSI_VISIBLE
/* newlib's, by the names that POSIX gives them */
extern long timezone __asm__("_timezone");
extern int daylight __asm__("_daylight");
#endif
#if __ISO_C_VISIBLE >= 2011
int timespec_get(struct timespec *into, int base);
#endif

#ifdef __cplusplus
}
#endif

#endif
