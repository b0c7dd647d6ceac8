/* newlib's own, and what it has for other systems alone. */
#include_next <unistd.h>

#ifndef NESTED_UNISTD_H
#define NESTED_UNISTD_H

#ifndef _CS_PATH
#define _CS_PATH 0
#endif

#ifndef L_SET
#define L_SET SEEK_SET
#define L_INCR SEEK_CUR
#define L_XTND SEEK_END
#endif

#ifdef __cplusplus
extern "C" {
#endif

#if __BSD_VISIBLE
int brk(void *end);
#endif
#if __GNU_VISIBLE
pid_t gettid(void);
int getresuid(uid_t *real, uid_t *effective, uid_t *saved);
int getresgid(gid_t *real, gid_t *effective, gid_t *saved);
int setresuid(uid_t real, uid_t effective, uid_t saved);
int setresgid(gid_t real, gid_t effective, gid_t saved);
#endif

#ifdef __cplusplus
}
#endif

#endif
