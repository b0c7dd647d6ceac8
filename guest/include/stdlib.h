/* newlib's own, and the program's name. Programs have functions itoa and utoa of their own, which are no part of any standard. */
#define itoa __itoa
#define utoa __utoa
#include_next <stdlib.h>
#undef itoa
#undef utoa

#ifndef NESTED_STDLIB_H
#define NESTED_STDLIB_H

#ifdef __cplusplus
extern "C" {
#endif

#if __BSD_VISIBLE
const char *getprogname(void);
void setprogname(const char *name);
int getloadavg(double into[], int most);
long long strtoq(const char *text, char **end, int base);
unsigned long long strtouq(const char *text, char **end, int base);
int clearenv(void);
#endif
#if __GNU_VISIBLE
char *canonicalize_file_name(const char *path);
#endif
#if __XSI_VISIBLE
int posix_openpt(int flags);
int grantpt(int fd);
int unlockpt(int fd);
char *ptsname(int fd);
#endif

#ifdef __cplusplus
}
#endif

#endif
