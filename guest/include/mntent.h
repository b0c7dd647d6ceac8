/* Mounted file systems, of which a guest sees none. */
#ifndef NESTED_MNTENT_H
#define NESTED_MNTENT_H

#include <stdio.h>

#define MNTTAB "/etc/fstab"
#define MOUNTED "/etc/mtab"
#define MNTOPT_DEFAULTS "defaults"
#define MNTOPT_RO "ro"
#define MNTOPT_RW "rw"
#define MNTTYPE_IGNORE "ignore"
#define MNTTYPE_SWAP "swap"

struct mntent {
    char *mnt_fsname;
    char *mnt_dir;
    char *mnt_type;
    char *mnt_opts;
    int mnt_freq;
    int mnt_passno;
};

#ifdef __cplusplus
extern "C" {
#endif

FILE *setmntent(const char *path, const char *mode);
struct mntent *getmntent(FILE *file);
struct mntent *getmntent_r(FILE *file, struct mntent *into, char *text, int bytes);
int addmntent(FILE *file, const struct mntent *entry);
int endmntent(FILE *file);
char *hasmntopt(const struct mntent *entry, const char *option);

#ifdef __cplusplus
}
#endif

#endif
