/* newlib's own, and flags that other systems have. A guest has one stack, and no call of it is ever interrupted. */
#include_next <signal.h>

#ifndef NESTED_SIGNAL_H
#define NESTED_SIGNAL_H

#define SA_RESTART 0x10
#define SA_NODEFER 0x20
#define SA_RESETHAND 0x40
#define SA_NOCLDWAIT 0x80

#define SI_TKILL 6
#define sigmask(signal) (1 << (signal))

/* why the system sends a signal, which it never does here; behind the numbers SI_USER and on */
#define ILL_ILLOPC 16
#define ILL_ILLOPN 17
#define ILL_ILLADR 18
#define ILL_ILLTRP 19
#define ILL_PRVOPC 20
#define ILL_PRVREG 21
#define ILL_COPROC 22
#define ILL_BADSTK 23
#define FPE_INTDIV 16
#define FPE_INTOVF 17
#define FPE_FLTDIV 18
#define FPE_FLTOVF 19
#define FPE_FLTUND 20
#define FPE_FLTRES 21
#define FPE_FLTINV 22
#define FPE_FLTSUB 23
#define SEGV_MAPERR 16
#define SEGV_ACCERR 17
#define BUS_ADRALN 16
#define BUS_ADRERR 17
#define BUS_OBJERR 18
#define TRAP_BRKPT 16
#define TRAP_TRACE 17
#define CLD_EXITED 16
#define CLD_KILLED 17
#define CLD_DUMPED 18
#define CLD_TRAPPED 19
#define CLD_STOPPED 20
#define CLD_CONTINUED 21
#define POLL_IN 16
#define POLL_OUT 17
#define POLL_MSG 18
#define POLL_ERR 19
#define POLL_PRI 20
#define POLL_HUP 21

#define SIGPOLL SIGIO
#define SIGRTMIN 32
#define SIGRTMAX 31

#ifdef __cplusplus
extern "C" {
#endif

#if __MISC_VISIBLE || __XSI_VISIBLE
int siginterrupt(int signal, int interrupts);
int sigblock(int mask);
int sigsetmask(int mask);
int sighold(int signal);
int sigrelse(int signal);
int sigignore(int signal);
#endif
#if __GNU_VISIBLE
int sigisemptyset(const sigset_t *set);
int sigandset(sigset_t *into, const sigset_t *one, const sigset_t *other);
int sigorset(sigset_t *into, const sigset_t *one, const sigset_t *other);
#endif

#ifdef __cplusplus
}
#endif

#endif
