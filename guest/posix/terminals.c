/* Terminals: their settings are kept and given back, and change nothing. Which sides of the console are terminals, isatty says. */
#include "call.h"

#include <errno.h>
#include <stdarg.h>
#include <stdio.h>
#include <stdlib.h>
#include <string.h>
#include <sys/ioctl.h>
#include <termios.h>
#include <unistd.h>

#pragma GCC diagnostic ignored "-Wunused-parameter"

static struct termios settings = {
    ICRNL | IXON | IUTF8, OPOST | ONLCR, CS8 | CREAD | B38400, ISIG | ICANON | ECHO | ECHOE | ECHOK | ECHOCTL | ECHOKE | IEXTEN, 0,
    { 3, 28, 127, 21, 4, 0, 1, 0, 17, 19, 26, 0, 18, 15, 23, 22 }, B38400, B38400
};

static int need_terminal(int fd)
{
    return isatty(fd) ? 0 : -1;
}

int tcgetattr(int fd, struct termios *into)
{
    if (need_terminal(fd) == 0)
        *into = settings;
    return need_terminal(fd);
}

int tcsetattr(int fd, int when, const struct termios *from)
{
    if (need_terminal(fd) == 0)
        settings = *from;
    return need_terminal(fd);
}

int tcsendbreak(int fd, int duration)
{
    return need_terminal(fd);
}

int tcdrain(int fd)
{
    return need_terminal(fd);
}

int tcflush(int fd, int queue)
{
    return need_terminal(fd);
}

int tcflow(int fd, int action)
{
    return need_terminal(fd);
}

pid_t tcgetsid(int fd)
{
    return need_terminal(fd) == 0 ? getpid() : -1;
}

pid_t tcgetpgrp(int fd)
{
    return tcgetsid(fd);
}

int tcsetpgrp(int fd, pid_t group)
{
    return need_terminal(fd);
}

speed_t cfgetispeed(const struct termios *from)
{
    return from->c_ispeed;
}

speed_t cfgetospeed(const struct termios *from)
{
    return from->c_ospeed;
}

int cfsetispeed(struct termios *into, speed_t speed)
{
    into->c_ispeed = speed;
    return 0;
}

int cfsetospeed(struct termios *into, speed_t speed)
{
    into->c_ospeed = speed;
    return 0;
}

int cfsetspeed(struct termios *into, speed_t speed)
{
    into->c_ispeed = into->c_ospeed = speed;
    return 0;
}

void cfmakeraw(struct termios *into)
{
    into->c_iflag &= ~(IGNBRK | BRKINT | PARMRK | ISTRIP | INLCR | IGNCR | ICRNL | IXON);
    into->c_oflag &= ~OPOST;
    into->c_lflag &= ~(ECHO | ECHONL | ICANON | ISIG | IEXTEN);
    into->c_cflag = (into->c_cflag & ~(CSIZE | PARENB)) | CS8;
    into->c_cc[VMIN] = 1;
    into->c_cc[VTIME] = 0;
}

/* ---- its size and its name */

static unsigned short number_in(const char *name, unsigned short otherwise)
{
    const char *text = getenv(name);
    int number = text != 0 ? atoi(text) : 0;
    return number > 0 && number < 65536 ? (unsigned short)number : otherwise;
}

/* The size of a terminal is that of the environment's LINES and COLUMNS. No other device has a request: ENOTTY says just that. */
int ioctl(int fd, unsigned long request, ...)
{
    va_list words;
    struct winsize *size;
    if (request != TIOCGWINSZ || !isatty(fd)) {
        errno = ENOTTY;
        return -1;
    }
    va_start(words, request);
    size = va_arg(words, struct winsize *);
    va_end(words);
    memset(size, 0, sizeof *size);
    size->ws_row = number_in("LINES", 24);
    size->ws_col = number_in("COLUMNS", 80);
    return 0;
}

int ttyname_r(int fd, char *into, size_t bytes)
{
    static const char name[] = "/dev/tty";
    if (!isatty(fd))
        return errno;
    if (bytes < sizeof name)
        return ERANGE;
    strcpy(into, name);
    return 0;
}

char *ttyname(int fd)
{
    static char name[16];
    int error = ttyname_r(fd, name, sizeof name);
    if (error != 0)
        errno = error;
    return error == 0 ? name : 0;
}

char *ctermid(char *into)
{
    static char name[L_ctermid];
    return strcpy(into != 0 ? into : name, "/dev/tty");
}

/* Asks on error output, and reads a line of input, which a terminal shows. */
char *getpass(const char *prompt)
{
    static char line[256];
    size_t bytes = 0;
    char byte;
    fputs(prompt, stderr);
    fflush(stderr);
    while (read(STDIN_FILENO, &byte, 1) == 1 && byte != '\n') {
        if (bytes < sizeof line - 1)
            line[bytes++] = byte;
    }
    line[bytes] = 0;
    return line;
}

int vhangup(void)
{
    return nested_missing();
}

int revoke(char *path)
{
    return nested_missing();
}
