/* newlib's own, and the groups of a user. */
#include_next <grp.h>

#ifndef NESTED_GRP_H
#define NESTED_GRP_H

#ifdef __cplusplus
extern "C" {
#endif

#if __BSD_VISIBLE
int getgrouplist(const char *name, gid_t group, gid_t *into, int *count);
int setgroups(int count, const gid_t *from);
#endif

#ifdef __cplusplus
}
#endif

#endif
