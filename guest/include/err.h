/* Messages of BSD: the program's name, a text, and what errno says. */
#ifndef NESTED_ERR_H
#define NESTED_ERR_H

#include <stdarg.h>

#ifdef __cplusplus
extern "C" {
#endif

void err(int status, const char *format, ...) __attribute__((__noreturn__, __format__(__printf__, 2, 3)));
void errc(int status, int error, const char *format, ...) __attribute__((__noreturn__, __format__(__printf__, 3, 4)));
void errx(int status, const char *format, ...) __attribute__((__noreturn__, __format__(__printf__, 2, 3)));
void verr(int status, const char *format, va_list words) __attribute__((__noreturn__, __format__(__printf__, 2, 0)));
void verrc(int status, int error, const char *format, va_list words) __attribute__((__noreturn__, __format__(__printf__, 3, 0)));
void verrx(int status, const char *format, va_list words) __attribute__((__noreturn__, __format__(__printf__, 2, 0)));
void warn(const char *format, ...) __attribute__((__format__(__printf__, 1, 2)));
void warnc(int error, const char *format, ...) __attribute__((__format__(__printf__, 2, 3)));
void warnx(const char *format, ...) __attribute__((__format__(__printf__, 1, 2)));
void vwarn(const char *format, va_list words) __attribute__((__format__(__printf__, 1, 0)));
void vwarnc(int error, const char *format, va_list words) __attribute__((__format__(__printf__, 2, 0)));
void vwarnx(const char *format, va_list words) __attribute__((__format__(__printf__, 1, 0)));

#ifdef __cplusplus
}
#endif

#endif
