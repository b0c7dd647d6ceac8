/*
 * Time. The system tells the moment at which the run began, and no other: in a run, time stands still. A host may answer a file that tells three
 * times: since 1970, since the run began, and of the processor.
 */
#include "call.h"
#include "host.h"

#include <errno.h>
#include <string.h>
#include <sys/resource.h>
#include <sys/time.h>
#include <sys/timeb.h>
#include <sys/times.h>
#include <time.h>
#include <unistd.h>

#pragma GCC diagnostic ignored "-Wunused-parameter"

enum { SINCE_1970, SINCE_START, OF_PROCESSOR, TIMES };

static int has_no_clock;

/* One of the host's times, or what is known without a host: the moment at which the run began, and 0. */
static struct timespec read_clock(int which)
{
    unsigned char bytes[TIMES * HOST_TIME_BYTES];
    struct timespec made = { 0, 0 };
    long got = has_no_clock ? -ENOENT : nested_host_read(HOST_CLOCK, bytes, sizeof bytes);
    if (got == sizeof bytes)
        return nested_host_time(bytes + which * HOST_TIME_BYTES);
    has_no_clock = got == -ENOENT;
    if (which == SINCE_1970)
        made.tv_sec = nested_call(CALL_TIME, 0, 0, 0);
    return made;
}

static struct timeval read_timeval(int which)
{
    struct timespec now = read_clock(which);
    struct timeval made = { now.tv_sec, now.tv_nsec / 1000 };
    return made;
}

/* Microseconds, as clock_t counts them: they begin anew after 4,294 seconds. */
static clock_t read_ticks(int which)
{
    struct timespec now = read_clock(which);
    return (clock_t)now.tv_sec * CLOCKS_PER_SEC + (clock_t)now.tv_nsec / 1000;
}

int gettimeofday(struct timeval *into, void *zone)
{
    *into = read_timeval(SINCE_1970);
    if (zone != 0)
        memset(zone, 0, sizeof(struct timezone));
    return 0;
}

static int is_clock(clockid_t clock)
{
    if (clock <= CLOCK_BOOTTIME_ALARM)
        return 1;
    errno = EINVAL;
    return 0;
}

int clock_gettime(clockid_t clock, struct timespec *into)
{
    if (!is_clock(clock))
        return -1;
    switch (clock) {
    case CLOCK_REALTIME:
    case CLOCK_REALTIME_COARSE:
    case CLOCK_REALTIME_ALARM:
        *into = read_clock(SINCE_1970);
        return 0;
    case CLOCK_PROCESS_CPUTIME_ID:
    case CLOCK_THREAD_CPUTIME_ID:
        *into = read_clock(OF_PROCESSOR);
        return 0;
    default:
        *into = read_clock(SINCE_START);
        return 0;
    }
}

int clock_getres(clockid_t clock, struct timespec *into)
{
    if (!is_clock(clock))
        return -1;
    read_clock(SINCE_START);
    if (into != 0)
        *into = (struct timespec){ has_no_clock, !has_no_clock };
    return 0;
}

int clock_getcpuclockid(pid_t process, clockid_t *into)
{
    *into = CLOCK_PROCESS_CPUTIME_ID;
    return process == 0 || process == getpid() ? 0 : ESRCH;
}

int ftime(struct timeb *into)
{
    struct timespec now = read_clock(SINCE_1970);
    memset(into, 0, sizeof *into);
    into->time = now.tv_sec;
    into->millitm = (unsigned short)(now.tv_nsec / 1000000);
    return 0;
}

int timespec_get(struct timespec *into, int base)
{
    return base == TIME_UTC && clock_gettime(CLOCK_REALTIME, into) == 0 ? base : 0;
}

/* Days from 1970 to the first of March of a year that begins in March, by the Gregorian calendar. */
static long long days_to(long long year)
{
    long long era = (year >= 0 ? year : year - 399) / 400, of_era = year - era * 400;
    return era * 146097 + of_era * 365 + of_era / 4 - of_era / 100 - 719468;
}

/* As mktime, for UTC: the parts may be out of their ranges, and are put into them. */
time_t timegm(struct tm *parts)
{
    long long month = parts->tm_mon + 10LL, year = parts->tm_year + 1899LL + month / 12;
    long long moment;
    time_t made;
    if (month < 0) {
        year = parts->tm_year + 1899LL + (month - 11) / 12;
        month = month % 12 + 12;
    }
    moment = days_to(year) + (153 * (month % 12) + 2) / 5 + parts->tm_mday - 1;
    moment = ((moment * 24 + parts->tm_hour) * 60 + parts->tm_min) * 60 + parts->tm_sec;
    made = moment;
    gmtime_r(&made, parts);
    return made;
}

time_t timelocal(struct tm *parts)
{
    return mktime(parts);
}

/* ---- of the processor: all of it counts as the program's own, in microseconds */

clock_t times(struct tms *into)
{
    memset(into, 0, sizeof *into);
    into->tms_utime = read_ticks(OF_PROCESSOR);
    return read_ticks(SINCE_START);
}

int getrusage(int who, struct rusage *into)
{
    memset(into, 0, sizeof *into);
    if (who == RUSAGE_SELF)
        into->ru_utime = read_timeval(OF_PROCESSOR);
    return 0;
}

/* ---- clocks that cannot be set */

static int may_not(void)
{
    errno = EPERM;
    return -1;
}

int settimeofday(const struct timeval *time, const struct timezone *zone)
{
    return may_not();
}

int clock_settime(clockid_t clock, const struct timespec *time)
{
    return may_not();
}

int adjtime(const struct timeval *change, struct timeval *left)
{
    return may_not();
}

int clock_setenable_attr(clockid_t clock, int attribute)
{
    return may_not();
}

int clock_getenable_attr(clockid_t clock, int *into)
{
    *into = CLOCK_ENABLED;
    return is_clock(clock) ? 0 : -1;
}

/* ---- waiting: a host with a clock waits when a file is opened whose name ends in nanoseconds. Elsewhere to wait takes no time. */

static void wait_for(long long nanoseconds)
{
    char name[NAME_BYTES] = HOST_SLEEP, digits[24], *first = digits + sizeof digits - 1;
    long descriptor;
    if (nanoseconds <= 0)
        return;
    for (*first = 0; nanoseconds > 0; nanoseconds /= 10)
        *--first = (char)('0' + nanoseconds % 10);
    descriptor = nested_call(CALL_OPEN, (long)strcat(name, first), 0, 0);
    if (descriptor >= 0)
        nested_call(CALL_CLOSE, descriptor, 0, 0);
}

#define SECOND 1000000000

int nanosleep(const struct timespec *wanted, struct timespec *left)
{
    if (wanted->tv_sec < 0 || wanted->tv_nsec < 0 || wanted->tv_nsec >= SECOND) {
        errno = EINVAL;
        return -1;
    }
    wait_for((long long)wanted->tv_sec * SECOND + wanted->tv_nsec);
    if (left != 0)
        memset(left, 0, sizeof *left);
    return 0;
}

int clock_nanosleep(clockid_t clock, int flags, const struct timespec *wanted, struct timespec *left)
{
    struct timespec now;
    if (clock_gettime(clock, &now) < 0)
        return EINVAL;
    if (flags != TIMER_ABSTIME)
        return nanosleep(wanted, left) == 0 ? 0 : errno;
    wait_for((long long)(wanted->tv_sec - now.tv_sec) * SECOND + wanted->tv_nsec - now.tv_nsec);
    return 0;
}

unsigned sleep(unsigned seconds)
{
    wait_for((long long)seconds * SECOND);
    return 0;
}

int usleep(useconds_t microseconds)
{
    wait_for(microseconds * 1000LL);
    return 0;
}

/* An alarm never comes. */
unsigned alarm(unsigned seconds)
{
    return 0;
}

useconds_t ualarm(useconds_t microseconds, useconds_t interval)
{
    return 0;
}
