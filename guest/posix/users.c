/* Users and groups: nobody has a name, and there is one user, 0, who stays what it is. */
#include "call.h"

#include <errno.h>
#include <grp.h>
#include <pwd.h>
#include <string.h>
#include <stdlib.h>
#include <stdio.h>
#include <unistd.h>

#pragma GCC diagnostic ignored "-Wunused-parameter"

/* ---- names */

struct passwd *getpwuid(uid_t user)
{
    return 0;
}

struct passwd *getpwnam(const char *name)
{
    return 0;
}

int getpwuid_r(uid_t user, struct passwd *into, char *room, size_t bytes, struct passwd **found)
{
    *found = 0;
    return 0;
}

int getpwnam_r(const char *name, struct passwd *into, char *room, size_t bytes, struct passwd **found)
{
    *found = 0;
    return 0;
}

struct passwd *getpwent(void)
{
    return 0;
}

void setpwent(void)
{
}

void endpwent(void)
{
}

int setpassent(int stays)
{
    return 1;
}

struct group *getgrgid(gid_t group)
{
    return 0;
}

struct group *getgrnam(const char *name)
{
    return 0;
}

int getgrgid_r(gid_t group, struct group *into, char *room, size_t bytes, struct group **found)
{
    *found = 0;
    return 0;
}

int getgrnam_r(const char *name, struct group *into, char *room, size_t bytes, struct group **found)
{
    *found = 0;
    return 0;
}

struct group *getgrent(void)
{
    return 0;
}

void setgrent(void)
{
}

void endgrent(void)
{
}

int initgroups(const char *name, gid_t group)
{
    return group == 0 ? 0 : nested_missing();
}

char *getlogin(void)
{
    errno = ENOENT;
    return 0;
}

int getlogin_r(char *into, size_t bytes)
{
    return ENOENT;
}

char *cuserid(char *into)
{
    static char nobody[L_cuserid];
    if (into != 0)
        *into = 0;
    return into != 0 ? into : nobody;
}

char *getusershell(void)
{
    return 0;
}

void setusershell(void)
{
}

void endusershell(void)
{
}

/* ---- numbers */

uid_t getuid(void)
{
    return 0;
}

uid_t geteuid(void)
{
    return 0;
}

gid_t getgid(void)
{
    return 0;
}

gid_t getegid(void)
{
    return 0;
}

int issetugid(void)
{
    return 0;
}

/* To become who one is succeeds, and nobody becomes another. */
static int become(int is_same)
{
    if (is_same)
        return 0;
    errno = EPERM;
    return -1;
}

int setuid(uid_t user)
{
    return become(user == 0);
}

int seteuid(uid_t user)
{
    return become(user == 0);
}

int setreuid(uid_t user, uid_t effective)
{
    return become((user == 0 || user == (uid_t)-1) && (effective == 0 || effective == (uid_t)-1));
}

int setgid(gid_t group)
{
    return become(group == 0);
}

int setegid(gid_t group)
{
    return become(group == 0);
}

int setregid(gid_t group, gid_t effective)
{
    return become((group == 0 || group == (gid_t)-1) && (effective == 0 || effective == (gid_t)-1));
}

int getresuid(uid_t *real, uid_t *effective, uid_t *saved)
{
    *real = *effective = *saved = 0;
    return 0;
}

int getresgid(gid_t *real, gid_t *effective, gid_t *saved)
{
    *real = *effective = *saved = 0;
    return 0;
}

int setresuid(uid_t real, uid_t effective, uid_t saved)
{
    return setreuid(real, effective) == 0 ? setreuid(saved, effective) : -1;
}

int setresgid(gid_t real, gid_t effective, gid_t saved)
{
    return setregid(real, effective) == 0 ? setregid(saved, effective) : -1;
}

int getgrouplist(const char *name, gid_t group, gid_t *into, int *count)
{
    int room = *count;
    *count = 1;
    if (room < 1)
        return -1;
    *into = group;
    return 1;
}

int getgroups(int most, gid_t into[])
{
    return 0;
}

int setgroups(int count, const gid_t *from)
{
    return become(count == 0);
}

/* ---- secrets: there is no DES */

char *crypt(const char *key, const char *salt)
{
    nested_missing();
    return 0;
}

void encrypt(char *block, int decrypts)
{
    nested_missing();
}

void setkey(const char *key)
{
    nested_missing();
}
