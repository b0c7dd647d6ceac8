/* Messages: those of BSD and GNU to error output, those for a system's log, and texts in other languages, of which there are none. */
#include "call.h"

#include <err.h>
#include <errno.h>
#include <error.h>
#include <libintl.h>
#include <nl_types.h>
#include <stdio.h>
#include <stdlib.h>
#include <string.h>
#include <syslog.h>

#pragma GCC diagnostic ignored "-Wunused-parameter"

/* ---- of BSD */

/* The program's name without its folder, the text where there is one, and what an error number above 0 says. */
static void tell(int number, const char *format, va_list words)
{
    fflush(stdout);
    fprintf(stderr, "%s: ", getprogname());
    if (format != 0)
        vfprintf(stderr, format, words);
    if (number > 0)
        fprintf(stderr, "%s%s", format != 0 ? ": " : "", strerror(number));
    fputc('\n', stderr);
}

void vwarnc(int number, const char *format, va_list words)
{
    tell(number, format, words);
}

void vwarn(const char *format, va_list words)
{
    tell(errno, format, words);
}

void vwarnx(const char *format, va_list words)
{
    tell(0, format, words);
}

void verrc(int status, int number, const char *format, va_list words)
{
    tell(number, format, words);
    exit(status);
}

void verr(int status, const char *format, va_list words)
{
    verrc(status, errno, format, words);
}

void verrx(int status, const char *format, va_list words)
{
    verrc(status, 0, format, words);
}

void warn(const char *format, ...)
{
    va_list words;
    va_start(words, format);
    vwarn(format, words);
    va_end(words);
}

void warnc(int number, const char *format, ...)
{
    va_list words;
    va_start(words, format);
    vwarnc(number, format, words);
    va_end(words);
}

void warnx(const char *format, ...)
{
    va_list words;
    va_start(words, format);
    vwarnx(format, words);
    va_end(words);
}

void err(int status, const char *format, ...)
{
    va_list words;
    va_start(words, format);
    verr(status, format, words);
}

void errc(int status, int number, const char *format, ...)
{
    va_list words;
    va_start(words, format);
    verrc(status, number, format, words);
}

void errx(int status, const char *format, ...)
{
    va_list words;
    va_start(words, format);
    verrx(status, format, words);
}

/* ---- of GNU */

unsigned error_message_count;
int error_one_per_line;
void (*error_print_progname)(void);

static void tell_name(void)
{
    fflush(stdout);
    if (error_print_progname != 0)
        error_print_progname();
    else
        fprintf(stderr, "%s:", program_invocation_name);
}

static void tell_rest(int status, int number, const char *format, va_list words)
{
    vfprintf(stderr, format, words);
    if (number != 0)
        fprintf(stderr, ": %s", strerror(number));
    fputc('\n', stderr);
    error_message_count++;
    if (status != 0)
        exit(status);
}

void error(int status, int number, const char *format, ...)
{
    va_list words;
    va_start(words, format);
    tell_name();
    if (error_print_progname == 0)
        fputc(' ', stderr);
    tell_rest(status, number, format, words);
    va_end(words);
}

void error_at_line(int status, int number, const char *file, unsigned line, const char *format, ...)
{
    static const char *last_file;
    static unsigned last_line;
    va_list words;
    if (error_one_per_line && last_line == line && last_file != 0 && file != 0 && strcmp(last_file, file) == 0)
        return;
    last_file = file;
    last_line = line;
    va_start(words, format);
    tell_name();
    if (file != 0)
        fprintf(stderr, "%s:%u: ", file, line);
    else
        fputc(' ', stderr);
    tell_rest(status, number, format, words);
    va_end(words);
}

/* ---- for a log */

static const char *log_name;
static int log_options, log_mask = 0xff;

void openlog(const char *name, int options, int facility)
{
    log_name = name;
    log_options = options;
}

void closelog(void)
{
    log_name = 0;
    log_options = 0;
}

int setlogmask(int mask)
{
    int before = log_mask;
    if (mask != 0)
        log_mask = mask;
    return before;
}

/* The format with what errno says in place of %m, as much of it as there is room for. */
static const char *with_error(const char *format, char *into, size_t room)
{
    const char *text = strerror(errno);
    size_t bytes = 0;
    while (*format != 0 && bytes + strlen(text) + 2 < room) {
        if (format[0] == '%' && format[1] == 'm') {
            strcpy(into + bytes, text);
            bytes += strlen(text);
            format += 2;
        } else {
            if (format[0] == '%' && format[1] != 0)
                into[bytes++] = *format++;
            into[bytes++] = *format++;
        }
    }
    into[bytes] = 0;
    return into;
}

void vsyslog(int priority, const char *format, va_list words)
{
    char whole[1024];
    if ((log_options & LOG_PERROR) == 0 || (log_mask & LOG_MASK(LOG_PRI(priority))) == 0)
        return;
    fprintf(stderr, "%s: ", log_name != 0 ? log_name : getprogname());
    vfprintf(stderr, with_error(format, whole, sizeof whole), words);
    fputc('\n', stderr);
}

void syslog(int priority, const char *format, ...)
{
    va_list words;
    va_start(words, format);
    vsyslog(priority, format, words);
    va_end(words);
}

/* ---- in other languages */

char *gettext(const char *text)
{
    return (char *)text;
}

char *dgettext(const char *domain, const char *text)
{
    return (char *)text;
}

char *dcgettext(const char *domain, const char *text, int category)
{
    return (char *)text;
}

char *ngettext(const char *one, const char *many, unsigned long count)
{
    return (char *)(count == 1 ? one : many);
}

char *dngettext(const char *domain, const char *one, const char *many, unsigned long count)
{
    return ngettext(one, many, count);
}

char *dcngettext(const char *domain, const char *one, const char *many, unsigned long count, int category)
{
    return ngettext(one, many, count);
}

char *textdomain(const char *domain)
{
    static char chosen[64] = "messages";
    if (domain != 0 && strlen(domain) < sizeof chosen)
        strcpy(chosen, *domain != 0 ? domain : "messages");
    return chosen;
}

char *bindtextdomain(const char *domain, const char *folder)
{
    return (char *)folder;
}

char *bind_textdomain_codeset(const char *domain, const char *codeset)
{
    return (char *)codeset;
}

nl_catd catopen(const char *name, int flags)
{
    errno = ENOENT;
    return (nl_catd)-1;
}

char *catgets(nl_catd catalogue, int set, int number, const char *text)
{
    return (char *)text;
}

int catclose(nl_catd catalogue)
{
    errno = EBADF;
    return -1;
}
