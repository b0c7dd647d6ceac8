/* Files, and the descriptors that stand for them. */
#include "call.h"
#include "host.h"
#include "pipes.h"

#include <errno.h>
#include <fcntl.h>
#include <poll.h>
#include <stdarg.h>
#include <stdlib.h>
#include <string.h>
#include <sys/stat.h>
#include <unistd.h>
#include <utime.h>

/* What the system does not tell of a descriptor again: how it was opened, what it is, and its file's number. */
struct descriptor {
    unsigned char flags;                /* the access and O_APPEND */
    unsigned char side;                 /* of a side of the console, 1 more than its number */
    unsigned char device;               /* what the library answers itself */
    unsigned short number;              /* of a pipe, that of the end */
};

enum { NO_DEVICE, DEVICE_NULL, DEVICE_ZERO, DEVICE_RANDOM, DEVICE_FOLDER, DEVICE_PIPE };

const struct nested_pipes *nested_pipes;

#define KEPT_FLAGS (O_ACCMODE | O_APPEND)

static struct descriptor descriptors[DESCRIPTORS] = {
    { O_RDONLY, 1, 0, 0 }, { O_WRONLY, 2, 0, 0 }, { O_WRONLY, 3, 0, 0 }
};

static int device_of(int fd)
{
    return fd >= 0 && fd < DESCRIPTORS ? descriptors[fd].device : NO_DEVICE;
}

static int may_write(int fd)
{
    return (descriptors[fd].flags & O_ACCMODE) != O_RDONLY;
}

static int is_open(int fd)
{
    unsigned words[4];
    return nested_answer(nested_call(CALL_FSTAT, fd, (long)words, 0)) == 0;
}

/* ---- open and close */

/* A file without a name or bytes stands for a device: no write reaches it. */
static int open_device(int device, int flags)
{
    static const char name[] = "/dev/null";
    long fd = nested_answer(nested_call(CALL_OPEN, (long)name, O_RDWR | O_CREAT, 0));
    if (fd >= 0) {
        nested_call(CALL_UNLINK, (long)name, 0, 0);
        descriptors[fd] = (struct descriptor){ flags & O_ACCMODE, 0, (unsigned char)device, 0 };
    }
    return (int)fd;
}

static int open_file(const char *name, int flags)
{
    long fd = nested_answer(nested_call(CALL_OPEN, (long)name, flags, 0666));
    if (fd >= 0)
        descriptors[fd] = (struct descriptor){ flags & KEPT_FLAGS, 0, NO_DEVICE, nested_number(name) };
    return (int)fd;
}

int nested_open_end(unsigned end)
{
    int fd = open_device(DEVICE_PIPE, end % 2 == 0 ? O_RDONLY : O_WRONLY);
    if (fd >= 0) {
        descriptors[fd].number = (unsigned short)end;
        nested_pipes->share(end);
    }
    return fd;
}

/* Random bytes come from the host, or where it has none from a generator, if the environment has a seed for it. */
static int open_random(const char *path, int flags)
{
    int fd = open_file(path, flags & O_ACCMODE);
    return fd < 0 && errno == ENOENT && nested_has_seed() ? open_device(DEVICE_RANDOM, flags) : fd;
}

static const char *const sides[] = { "/dev/stdin", "/dev/stdout", "/dev/stderr" };

/* Opens what a path below /dev/ means, or answers -2 where it is for the system to say. */
static int open_in_dev(const char *path, int flags)
{
    if (strcmp(path, "/dev/null") == 0)
        return open_device(DEVICE_NULL, flags);
    if (strcmp(path, "/dev/zero") == 0)
        return open_device(DEVICE_ZERO, flags);
    if (strcmp(path, "/dev/random") == 0 || strcmp(path, "/dev/urandom") == 0)
        return open_random(path, flags);
    for (int side = 0; side < 3; side++)
        if (strcmp(path, sides[side]) == 0)
            return dup(side);
    if (strncmp(path, "/dev/fd/", 8) == 0 && path[8] >= '0' && path[8] <= '9')
        return dup(atoi(path + 8));
    if (strcmp(path, "/dev/tty") == 0 && isatty(STDERR_FILENO))
        return dup((flags & O_ACCMODE) == O_RDONLY ? STDIN_FILENO : STDERR_FILENO);
    return -2;
}

/* Opens a folder, from which paths may go on. A host that has folders lists it, too. */
static int open_folder(const char *path, const char *name, int flags)
{
    char whole[PATH_MAX];
    int fd;
    if ((flags & O_ACCMODE) != O_RDONLY || (flags & O_CREAT) != 0) {
        errno = EISDIR;
        return -1;
    }
    if (nested_whole_path(path, whole) < 0)
        return -1;
    fd = nested_host_has_folders() ? nested_open_list(name) : open_device(DEVICE_FOLDER, O_RDONLY);
    if (fd >= 0) {
        descriptors[fd] = (struct descriptor){ O_RDONLY, 0, DEVICE_FOLDER, nested_number(name) };
        nested_set_folder_path(fd, strdup(whole));
    }
    return fd;
}

static int is_folder(const char *path)
{
    struct stat found;
    return stat(path, &found) == 0 && S_ISDIR(found.st_mode);
}

int open(const char *path, int flags, ...)
{
    char buffer[NAME_BYTES];
    const char *name;
    int fd = path != 0 && strncmp(path, "/dev/", 5) == 0 ? open_in_dev(path, flags) : -2;
    if (fd != -2)
        return fd;
    name = nested_name(path, buffer);
    if (name == 0)
        return -1;
    if (*name == 0 || (flags & O_DIRECTORY) != 0) {
        if (*name == 0 || is_folder(path))
            return open_folder(path, name, flags);
        errno = access(path, F_OK) == 0 ? ENOTDIR : ENOENT;
        return -1;
    }
    fd = open_file(name, flags);
    if (fd < 0 && (errno == ENOENT || errno == EACCES) && nested_host_has_folders() && is_folder(path))
        return open_folder(path, name, flags);
    return fd;
}

int close(int fd)
{
    long answer = nested_answer(nested_call(CALL_CLOSE, fd, 0, 0));
    if (answer == 0) {
        if (device_of(fd) == DEVICE_FOLDER)
            nested_set_folder_path(fd, 0);
        if (device_of(fd) == DEVICE_PIPE)
            nested_pipes->leave(descriptors[fd].number);
        descriptors[fd] = (struct descriptor){ 0, 0, 0, 0 };
    }
    return (int)answer;
}

/* ---- bytes */

_READ_WRITE_RETURN_TYPE read(int fd, void *into, size_t bytes)
{
    switch (device_of(fd)) {
    case DEVICE_ZERO:
        memset(into, 0, bytes);
        return (_READ_WRITE_RETURN_TYPE)bytes;
    case DEVICE_RANDOM:
        return nested_random(into, bytes) == 0 ? (_READ_WRITE_RETURN_TYPE)bytes : -1;
    case DEVICE_FOLDER:
        errno = EISDIR;
        return -1;
    case DEVICE_PIPE:
        return nested_pipes->read(descriptors[fd].number, into, bytes);
    default:
        return nested_answer(nested_call(CALL_READ, fd, (long)into, (long)bytes));
    }
}

_READ_WRITE_RETURN_TYPE write(int fd, const void *from, size_t bytes)
{
    if (device_of(fd) == DEVICE_PIPE)
        return nested_pipes->write(descriptors[fd].number, from, bytes);
    if (device_of(fd) != NO_DEVICE && may_write(fd))
        return (_READ_WRITE_RETURN_TYPE)bytes;
    return nested_answer(nested_call(CALL_WRITE, fd, (long)from, device_of(fd) != NO_DEVICE ? 0 : (long)bytes));
}

off_t lseek(int fd, off_t offset, int whence)
{
    if (device_of(fd) == DEVICE_PIPE) {
        errno = ESPIPE;
        return -1;
    }
    if (device_of(fd) != NO_DEVICE)
        return 0;
    return nested_answer(nested_call(CALL_LSEEK, fd, offset, whence));
}

int ftruncate(int fd, off_t length)
{
    if (device_of(fd) != NO_DEVICE) {
        errno = EINVAL;
        return -1;
    }
    return (int)nested_answer(nested_call(CALL_FTRUNCATE, fd, length, 0));
}

int truncate(const char *path, off_t length)
{
    int fd = open(path, O_WRONLY), result;
    if (fd < 0)
        return -1;
    result = ftruncate(fd, length);
    close(fd);
    return result;
}

/* What is written is there: nothing is held back. */
int fsync(int fd)
{
    return is_open(fd) ? 0 : -1;
}

/* ---- descriptors */

int dup(int fd)
{
    long made = nested_answer(nested_call(CALL_DUP, fd, 0, 0));
    if (made < 0)
        return -1;
    descriptors[made] = descriptors[fd];
    if (device_of(fd) == DEVICE_FOLDER)
        nested_set_folder_path((int)made, strdup(nested_folder_path(fd)));
    if (device_of(fd) == DEVICE_PIPE)
        nested_pipes->share(descriptors[fd].number);
    return (int)made;
}

/* The system gives the lowest free descriptor alone, so those below `least` are taken first and given back. */
static int dup_from(int fd, int least)
{
    int made = dup(fd), result;
    if (made < 0 || made >= least)
        return made;
    result = dup_from(fd, least);
    close(made);
    return result;
}

int dup2(int fd, int wanted)
{
    if (!is_open(fd))
        return -1;
    if (wanted < 0 || wanted >= DESCRIPTORS) {
        errno = EBADF;
        return -1;
    }
    if (fd == wanted)
        return wanted;
    if (is_open(wanted))
        close(wanted);
    return dup_from(fd, wanted);
}

int dup3(int fd, int wanted, int flags)
{
    (void)flags;
    if (fd == wanted) {
        errno = EINVAL;
        return -1;
    }
    return dup2(fd, wanted);
}

static int dup_by_word(int fd, long least)
{
    if (least < 0 || least >= DESCRIPTORS) {
        errno = EINVAL;
        return -1;
    }
    return dup_from(fd, (int)least);
}

/* What may be set of a descriptor means something to pipes alone. */
static int set_flags(int fd, long flags)
{
    if (device_of(fd) == DEVICE_PIPE)
        *nested_pipes->flags(descriptors[fd].number) = flags & O_NONBLOCK;
    return 0;
}

static int flags_of(int fd)
{
    return (descriptors[fd].flags & KEPT_FLAGS) | (device_of(fd) == DEVICE_PIPE ? *nested_pipes->flags(descriptors[fd].number) : 0);
}

/* There is one process, so a lock is always free, and there is no other program for which a descriptor would be closed. */
int fcntl(int fd, int command, ...)
{
    va_list words;
    long word = 0;
    if (!is_open(fd))
        return -1;
    va_start(words, command);
    if (command != F_GETFD && command != F_GETFL)
        word = va_arg(words, long);     /* an address of struct flock is one, too */
    va_end(words);
    switch (command) {
    case F_DUPFD:
    case F_DUPFD_CLOEXEC:
        return dup_by_word(fd, word);
    case F_GETFL:
        return flags_of(fd);
    case F_SETFL:
        return set_flags(fd, word);
    case F_GETLK:
        ((struct flock *)word)->l_type = F_UNLCK;
        return 0;
    case F_GETFD:
    case F_SETFD:
    case F_SETLK:
    case F_SETLKW:
        return 0;
    default:
        errno = EINVAL;
        return -1;
    }
}

int flock(int fd, int operation)
{
    (void)operation;
    return is_open(fd) ? 0 : -1;
}

/* A pipe is ready or not; others are always. */
int nested_ready(int fd)
{
    return device_of(fd) == DEVICE_PIPE ? nested_pipes->ready(descriptors[fd].number) : POLLIN | POLLOUT;
}

/*
 * The system calls each side of the console a terminal, since it does not know better. Who runs the program does, and says so in the environment:
 * NESTED_TTY has the digits of the sides that are terminals. Without it none is.
 */
int isatty(int fd)
{
    const char *terminals = getenv("NESTED_TTY");
    long answer = device_of(fd) != NO_DEVICE ? 0 : nested_answer(nested_call(CALL_ISATTY, fd, 0, 0));
    if (answer > 0 && (terminals == 0 || strchr(terminals, '0' + descriptors[fd].side - 1) == 0))
        answer = 0;
    if (answer == 0)
        errno = ENOTTY;
    return answer > 0;
}

/* ---- what a file is */

enum { OF_FILES = 1, OF_CONSOLE };

static void describe(struct stat *into, mode_t mode, dev_t device, unsigned short number)
{
    memset(into, 0, sizeof *into);
    into->st_mode = mode;
    into->st_dev = device;
    into->st_ino = number;
    into->st_nlink = 1;
    into->st_blksize = 4096;
    into->st_atime = into->st_mtime = into->st_ctime = nested_call(CALL_TIME, 0, 0, 0);
}

int fstat(int fd, struct stat *into)
{
    char name[NAME_BYTES], digits[DIGITS_BYTES];
    unsigned words[4];                  /* the kind, the length, the blocks of 4,096 bytes, and 4,096 */
    if (nested_answer(nested_call(CALL_FSTAT, fd, (long)words, 0)) < 0)
        return -1;
    if ((device_of(fd) != NO_DEVICE && device_of(fd) != DEVICE_FOLDER) || words[0] == 2) {
        describe(into, (device_of(fd) == DEVICE_PIPE ? S_IFIFO : S_IFCHR) | 0666, OF_CONSOLE, descriptors[fd].side);
        return 0;
    }
    describe(into, device_of(fd) == DEVICE_FOLDER ? S_IFDIR | 0777 : S_IFREG | 0666, OF_FILES, descriptors[fd].number);
    into->st_size = (off_t)words[1];
    into->st_blocks = words[2] * 8;     /* of 512 bytes */
    if (nested_host_has_folders() && nested_host_name(HOST_DESCRIPTOR, nested_digits((unsigned)fd, digits), name) != 0)
        nested_host_stat("", name, into);
    return 0;
}

/* Folders that are there on any system, by their paths. */
static int is_known_folder(const char *path)
{
    char whole[PATH_MAX], folder[PATH_MAX];
    return nested_whole_path(path, whole) >= 0 && (strcmp(whole, "/dev") == 0 || strcmp(whole, "/tmp") == 0 || strcmp(whole, "/") == 0
        || (getcwd(folder, sizeof folder) != 0 && strcmp(whole, folder) == 0));
}

/* What opens as a file, or is a device, is told by fstat. It is not opened by open, which asks stat whether it is a folder. */
static int stat_open(const char *path, const char *name, struct stat *into)
{
    int fd = open_in_dev(path, O_RDONLY), result;
    if (fd == -2)
        fd = open_file(name, O_RDONLY);
    if (fd < 0)
        return -1;
    result = fstat(fd, into);
    close(fd);
    return result;
}

int stat(const char *path, struct stat *into)
{
    char buffer[NAME_BYTES];
    const char *name = nested_name(path, buffer);
    int told;
    if (name == 0)
        return -1;
    describe(into, S_IFREG | 0666, OF_FILES, 0);
    told = strncmp(path, "/dev/", 5) != 0 && nested_host_has_folders() ? nested_host_stat(HOST_STATUS, name, into) : 0;
    if (told > 0)
        into->st_ino = nested_number(name);
    else if (is_known_folder(path))
        describe(into, S_IFDIR | 0777, OF_FILES, nested_number(name));
    else if (told < 0)
        return -1;
    else
        return stat_open(path, name, into);
    return 0;
}

int lstat(const char *path, struct stat *into)
{
    return stat(path, into);
}

/* A file may be read and written, unless a host says otherwise. It is no program that could be run. */
int access(const char *path, int mode)
{
    struct stat found;
    if (stat(path, &found) < 0)
        return -1;
    if (((mode & X_OK) != 0 && !S_ISDIR(found.st_mode)) || ((mode & W_OK) != 0 && (found.st_mode & 0222) == 0)
        || ((mode & R_OK) != 0 && (found.st_mode & 0444) == 0)) {
        errno = EACCES;
        return -1;
    }
    return 0;
}

/* ---- names */

int unlink(const char *path)
{
    char buffer[NAME_BYTES];
    const char *name = nested_name(path, buffer);
    long answer;
    if (name == 0)
        return -1;
    answer = nested_answer(nested_call(CALL_UNLINK, (long)name, 0, 0));
    if (answer == 0)
        nested_unlinked(name);
    else if (errno == ENOENT && is_folder(path))
        errno = EISDIR;
    return (int)answer;
}

static int rename_file(const char *old, const char *new)
{
    long answer = nested_answer(nested_call(CALL_RENAME, (long)old, (long)new, 0));
    if (answer == 0)
        nested_renamed(old, new);
    return (int)answer;
}

int _rename(const char *from, const char *to)
{
    char from_buffer[NAME_BYTES], to_buffer[NAME_BYTES];
    const char *old = nested_name(from, from_buffer);
    const char *new = old != 0 ? nested_name(to, to_buffer) : 0;
    if (new == 0)
        return -1;
    if (!nested_host_has_folders() || !is_folder(from))
        return rename_file(old, new);
    return nested_rename_folder(from, to);
}

/* ---- what files do not have: modes, owners and times. To set them does nothing to a file that is there. */

static int is_there(const char *path)
{
    struct stat found;
    return stat(path, &found);
}

int chmod(const char *path, mode_t mode)
{
    (void)mode;
    return is_there(path);
}

int fchmod(int fd, mode_t mode)
{
    (void)mode;
    return is_open(fd) ? 0 : -1;
}

int chown(const char *path, uid_t user, gid_t group)
{
    (void)user, (void)group;
    return is_there(path);
}

int lchown(const char *path, uid_t user, gid_t group)
{
    (void)user, (void)group;
    return is_there(path);
}

int fchown(int fd, uid_t user, gid_t group)
{
    (void)user, (void)group;
    return is_open(fd) ? 0 : -1;
}

int utime(const char *path, const struct utimbuf *times)
{
    (void)times;
    return is_there(path);
}

int utimes(const char *path, const struct timeval *times)
{
    (void)times;
    return is_there(path);
}

int lutimes(const char *path, const struct timeval *times)
{
    (void)times;
    return is_there(path);
}

int futimes(int fd, const struct timeval *times)
{
    (void)times;
    return is_open(fd) ? 0 : -1;
}

int futimens(int fd, const struct timespec *times)
{
    (void)times;
    return is_open(fd) ? 0 : -1;
}

mode_t umask(mode_t mode)
{
    static mode_t mask = 022;
    mode_t before = mask;
    mask = mode & 0777;
    return before;
}

/* ---- the names by which newlib's own parts call these */

int _open(const char *path, int flags, ...)
{
    return open(path, flags, 0666);
}

int _close(int fd)
{
    return close(fd);
}

int _fcntl(int fd, int command, ...)
{
    va_list words;
    long word;
    va_start(words, command);
    word = va_arg(words, long);
    va_end(words);
    return fcntl(fd, command, word);
}
