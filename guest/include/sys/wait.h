/* newlib's own, and other ways to wait for a child, which no program has. */
#include_next <sys/wait.h>

#ifndef NESTED_SYS_WAIT_H
#define NESTED_SYS_WAIT_H

#include <signal.h>
#include <sys/resource.h>

#define WSTOPPED WUNTRACED
#define WEXITED 4
#define WCONTINUED 8
#define WNOWAIT 0x1000000
#define WIFCONTINUED(status) ((status) == 0xffff)
#define WCOREDUMP(status) (((status) & 0x80) != 0)

#ifdef __cplusplus
extern "C" {
#endif

typedef enum { P_ALL, P_PID, P_PGID } idtype_t;

pid_t wait3(int *status, int options, struct rusage *used);
pid_t wait4(pid_t process, int *status, int options, struct rusage *used);
int waitid(idtype_t type, id_t id, siginfo_t *into, int options);

#ifdef __cplusplus
}
#endif

#endif
