/* The process: there is one. */
#include "call.h"

#include <errno.h>
#include <limits.h>
#include <poll.h>
#include <string.h>
#include <sys/resource.h>
#include <sys/select.h>
#include <sys/wait.h>
#include <unistd.h>

static pid_t no_process(void)
{
    errno = ESRCH;
    return -1;
}

pid_t getpid(void)
{
    return (pid_t)nested_call(CALL_GETPID, 0, 0, 0);
}

pid_t getppid(void)
{
    return 0;
}

pid_t gettid(void)
{
    return getpid();
}

/* It is the only one of its group and session. */
pid_t getpgrp(void)
{
    return getpid();
}

pid_t getpgid(pid_t process)
{
    return process == 0 || process == getpid() ? getpid() : no_process();
}

pid_t getsid(pid_t process)
{
    return getpgid(process);
}

/* No process has a child to wait for. */
pid_t wait(int *status)
{
    (void)status;
    errno = ECHILD;
    return -1;
}

pid_t waitpid(pid_t process, int *status, int options)
{
    (void)process, (void)options;
    return wait(status);
}

pid_t wait3(int *status, int options, struct rusage *used)
{
    (void)options, (void)used;
    return wait(status);
}

pid_t wait4(pid_t process, int *status, int options, struct rusage *used)
{
    (void)process, (void)options, (void)used;
    return wait(status);
}

int waitid(idtype_t type, id_t id, siginfo_t *into, int options)
{
    (void)type, (void)id, (void)into, (void)options;
    return wait(0);
}

pid_t _wait(int *status)
{
    return wait(status);
}

/* ---- limits */

int nice(int change)
{
    (void)change;
    return 0;
}

int getpriority(int which, id_t who)
{
    (void)which, (void)who;
    return 0;
}

int setpriority(int which, id_t who, int priority)
{
    (void)which, (void)who, (void)priority;
    return 0;
}

int setdtablesize(int size)
{
    (void)size;
    return 0;
}

long sysconf(int name)
{
    switch (name) {
    case _SC_PAGESIZE:
        return 4096;
    case _SC_NPROCESSORS_CONF:
    case _SC_NPROCESSORS_ONLN:
        return 1;
    case _SC_OPEN_MAX:
        return DESCRIPTORS;
    case _SC_ARG_MAX:
        return 4096;
    case _SC_CLK_TCK:
        return 100;
    case _SC_VERSION:
        return _POSIX_VERSION;
    case _SC_IOV_MAX:
        return 1024;
    case _SC_LINE_MAX:
        return 2048;
    case _SC_NGROUPS_MAX:
        return 0;
    case _SC_CHILD_MAX:
        return 1;
    case _SC_GETPW_R_SIZE_MAX:
    case _SC_GETGR_R_SIZE_MAX:
        return 1024;
    default:
        errno = EINVAL;
        return -1;
    }
}

int getdtablesize(void)
{
    return DESCRIPTORS;
}

int getrlimit(int resource, struct rlimit *into)
{
    into->rlim_cur = into->rlim_max = resource == RLIMIT_NOFILE ? DESCRIPTORS : RLIM_INFINITY;
    return 0;
}

/* ---- waiting: each descriptor but those of pipes is ready, since a read of input waits for itself */

int poll(struct pollfd *descriptors, nfds_t count, int timeout)
{
    int ready = 0;
    (void)timeout;
    for (nfds_t i = 0; i < count; i++) {
        descriptors[i].revents = descriptors[i].fd < 0 ? 0 : nested_ready(descriptors[i].fd) & (descriptors[i].events | POLLHUP | POLLERR);
        ready += descriptors[i].revents != 0;
    }
    return ready;
}

int pselect(int count, fd_set *readable, fd_set *writable, fd_set *urgent, const struct timespec *timeout, const sigset_t *mask)
{
    (void)timeout, (void)mask;
    return select(count, readable, writable, urgent, 0);
}

int ppoll(struct pollfd *descriptors, nfds_t count, const struct timespec *timeout, const sigset_t *mask)
{
    (void)timeout, (void)mask;
    return poll(descriptors, count, 0);
}

/* Whether it is in the set and ready, and it stays there only then */
static int keep_ready(int fd, fd_set *set, int events)
{
    if (set == 0 || !FD_ISSET(fd, set))
        return 0;
    if ((nested_ready(fd) & events) != 0)
        return 1;
    FD_CLR(fd, set);
    return 0;
}

int select(int count, fd_set *readable, fd_set *writable, fd_set *urgent, struct timeval *timeout)
{
    int ready = 0;
    (void)timeout;
    for (int fd = 0; fd < count; fd++)
        ready += keep_ready(fd, readable, POLLIN | POLLHUP) + keep_ready(fd, writable, POLLOUT | POLLERR);
    if (urgent != 0)
        FD_ZERO(urgent);
    return ready;
}
