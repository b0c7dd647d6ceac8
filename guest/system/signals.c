/*
 * Signals. None comes from outside: a program sends them to itself. A handler stays until another takes its place, and its signal is
 * held back while it runs, as in the library of GNU. This stands in for the file of newlib that has signal and raise.
 */
#include "call.h"

#include <errno.h>
#include <reent.h>
#include <setjmp.h>
#include <signal.h>
#include <string.h>
#include <sys/time.h>
#include <time.h>
#include <unistd.h>

#pragma GCC diagnostic ignored "-Wunused-parameter"

static struct sigaction actions[NSIG];
static sigset_t blocked, pending;
static union sigval values[NSIG];       /* what sigqueue sent last with a signal */

#define BIT(signal) ((sigset_t)1 << (signal))

static int is_signal(int signal)
{
    if (signal > 0 && signal < NSIG)
        return 1;
    errno = EINVAL;
    return 0;
}

void nested_killed(int signal)
{
    _exit(128 + signal);
}

/* What a signal without a handler does: these are passed over, there is nobody who would let a stopped program go on, and the rest end it. */
static void by_default(int signal)
{
    switch (signal) {
    case SIGCHLD:
    case SIGCONT:
    case SIGURG:
    case SIGWINCH:
        return;
    default:
        nested_killed(signal);
    }
}

static void deliver(int signal)
{
    siginfo_t sent = { signal, SI_USER, values[signal] };
    struct sigaction action = actions[signal];
    sigset_t before = blocked;
    if (action.sa_handler == SIG_IGN)
        return;
    if (action.sa_handler == SIG_DFL) {
        by_default(signal);
        return;
    }
    if (action.sa_flags & SA_RESETHAND)
        actions[signal].sa_handler = SIG_DFL;
    blocked |= action.sa_mask | (action.sa_flags & SA_NODEFER ? 0 : BIT(signal));
    if (action.sa_flags & SA_SIGINFO)
        action.sa_sigaction(signal, &sent, 0);
    else
        action.sa_handler(signal);
    sigprocmask(SIG_SETMASK, &before, 0);
}

int raise(int signal)
{
    if (!is_signal(signal))
        return -1;
    if (blocked & BIT(signal))
        pending |= BIT(signal);
    else
        deliver(signal);
    return 0;
}

int _raise_r(struct _reent *state, int signal)
{
    (void)state;
    return raise(signal);
}

int kill(pid_t process, int signal)
{
    if (process != getpid() && process != 0 && process != -1) {
        errno = ESRCH;
        return -1;
    }
    return signal == 0 ? 0 : raise(signal);
}

int sigaction(int signal, const struct sigaction *action, struct sigaction *before)
{
    if (!is_signal(signal))
        return -1;
    if (action != 0 && (signal == SIGKILL || signal == SIGSTOP)) {
        errno = EINVAL;
        return -1;
    }
    if (before != 0)
        *before = actions[signal];
    if (action != 0)
        actions[signal] = *action;
    return 0;
}

_sig_func_ptr signal(int number, _sig_func_ptr handler)
{
    struct sigaction action = { .sa_handler = handler }, before;
    return sigaction(number, &action, &before) == 0 ? before.sa_handler : SIG_ERR;
}

_sig_func_ptr _signal_r(struct _reent *state, int number, _sig_func_ptr handler)
{
    (void)state;
    return signal(number, handler);
}

int sigprocmask(int how, const sigset_t *set, sigset_t *before)
{
    if (before != 0)
        *before = blocked;
    if (set == 0)
        return 0;
    switch (how) {
    case SIG_BLOCK:
        blocked |= *set;
        break;
    case SIG_UNBLOCK:
        blocked &= ~*set;
        break;
    case SIG_SETMASK:
        blocked = *set;
        break;
    default:
        errno = EINVAL;
        return -1;
    }
    blocked &= ~(BIT(SIGKILL) | BIT(SIGSTOP));
    for (int signal = 1; signal < NSIG; signal++) {
        if (pending & ~blocked & BIT(signal)) {
            pending &= ~BIT(signal);
            deliver(signal);
        }
    }
    return 0;
}

int sigpending(sigset_t *into)
{
    *into = pending;
    return 0;
}

/* ---- sets, which newlib also has as macros */

#undef sigaddset
#undef sigdelset
#undef sigemptyset
#undef sigfillset
#undef sigismember

int sigaddset(sigset_t *set, const int signal)
{
    if (!is_signal(signal))
        return -1;
    *set |= BIT(signal);
    return 0;
}

int sigdelset(sigset_t *set, const int signal)
{
    if (!is_signal(signal))
        return -1;
    *set &= ~BIT(signal);
    return 0;
}

int sigemptyset(sigset_t *set)
{
    *set = 0;
    return 0;
}

int sigfillset(sigset_t *set)
{
    *set = ~(sigset_t)0;
    return 0;
}

int sigismember(const sigset_t *set, int signal)
{
    return is_signal(signal) ? (*set & BIT(signal)) != 0 : -1;
}

int sigisemptyset(const sigset_t *set)
{
    return *set == 0;
}

int sigandset(sigset_t *into, const sigset_t *one, const sigset_t *other)
{
    *into = *one & *other;
    return 0;
}

int sigorset(sigset_t *into, const sigset_t *one, const sigset_t *other)
{
    *into = *one | *other;
    return 0;
}

/* ---- waiting: for a signal that is pending; another one would never come */

int sigtimedwait(const sigset_t *set, siginfo_t *into, const struct timespec *timeout)
{
    for (int signal = 1; signal < NSIG; signal++) {
        if (pending & *set & BIT(signal)) {
            pending &= ~BIT(signal);
            if (into != 0)
                *into = (siginfo_t){ signal, SI_USER, values[signal] };
            return signal;
        }
    }
    errno = EAGAIN;
    return -1;
}

int sigwaitinfo(const sigset_t *set, siginfo_t *into)
{
    return sigtimedwait(set, into, 0);
}

int sigwait(const sigset_t *set, int *into)
{
    int signal = sigtimedwait(set, 0, 0);
    if (signal < 0)
        return errno;
    *into = signal;
    return 0;
}

int sigsuspend(const sigset_t *mask)
{
    sigset_t before = blocked;
    if ((pending & ~*mask) == 0)
        return nested_missing();
    sigprocmask(SIG_SETMASK, mask, 0);
    sigprocmask(SIG_SETMASK, &before, 0);
    errno = EINTR;
    return -1;
}

int pause(void)
{
    return sigsuspend(&blocked);
}

int __xpg_sigpause(int signal)
{
    sigset_t mask = blocked & ~BIT(signal);
    return sigsuspend(&mask);
}

#undef sigpause
int bsd_sigpause(int mask) __asm__("sigpause");
int bsd_sigpause(int mask)
{
    sigset_t set = (sigset_t)mask;
    return sigsuspend(&set);
}

/* ---- the same by other names */

int sigqueue(pid_t process, int signal, const union sigval value)
{
    if (is_signal(signal))
        values[signal] = value;
    return kill(process, signal);
}

int pthread_kill(pthread_t thread, int signal)
{
    return kill(getpid(), signal) == 0 ? 0 : errno;
}

int pthread_sigmask(int how, const sigset_t *set, sigset_t *before)
{
    return sigprocmask(how, set, before) == 0 ? 0 : errno;
}

int sighold(int signal)
{
    sigset_t set = BIT(signal);
    return is_signal(signal) ? sigprocmask(SIG_BLOCK, &set, 0) : -1;
}

int sigrelse(int signal)
{
    sigset_t set = BIT(signal);
    return is_signal(signal) ? sigprocmask(SIG_UNBLOCK, &set, 0) : -1;
}

int sigignore(int number)
{
    return signal(number, SIG_IGN) == SIG_ERR ? -1 : 0;
}

int sigblock(int mask)
{
    sigset_t set = (sigset_t)mask, before;
    sigprocmask(SIG_BLOCK, &set, &before);
    return (int)before;
}

int sigsetmask(int mask)
{
    sigset_t set = (sigset_t)mask, before;
    sigprocmask(SIG_SETMASK, &set, &before);
    return (int)before;
}

/* No call is interrupted, and handlers run on the one stack. */
int siginterrupt(int signal, int interrupts)
{
    return is_signal(signal) ? 0 : -1;
}

int sigaltstack(const stack_t *stack, stack_t *before)
{
    static stack_t kept = { 0, SS_DISABLE, 0 };
    if (before != 0)
        *before = kept;
    if (stack != 0)
        kept = *stack;
    return 0;
}

/* ---- jumps that keep the mask */

void nested_keep_mask(sigjmp_buf into, int saves)
{
    into->__saves = saves;
    into->__mask = blocked;
}

void siglongjmp(sigjmp_buf from, int result)
{
    sigset_t mask = from->__mask;
    if (from->__saves)
        sigprocmask(SIG_SETMASK, &mask, 0);
    longjmp(from->__registers, result);
}

/* ---- timers, of which no signal comes */

int getitimer(int which, struct itimerval *into)
{
    memset(into, 0, sizeof *into);
    return 0;
}

int setitimer(int which, const struct itimerval *wanted, struct itimerval *before)
{
    return nested_missing();
}

int timer_create(clockid_t clock, struct sigevent *event, timer_t *into)
{
    return nested_missing();
}

int timer_delete(timer_t timer)
{
    return nested_missing();
}

int timer_settime(timer_t timer, int flags, const struct itimerspec *wanted, struct itimerspec *before)
{
    return nested_missing();
}

int timer_gettime(timer_t timer, struct itimerspec *into)
{
    return nested_missing();
}

int timer_getoverrun(timer_t timer)
{
    return nested_missing();
}
