/*
 * Tries what only a guest has: one working folder, errors by their numbers, and calls that are not there. The word `host` says that it runs on a host
 * that answers files of its own, so that there are folders, a clock that moves, and random bytes. It prints a line a trial that fails.
 */
#define _GNU_SOURCE
#include <dirent.h>
#include <dlfcn.h>
#include <errno.h>
#include <fcntl.h>
#include <poll.h>
#include <pthread.h>
#include <signal.h>
#include <stdio.h>
#include <stdlib.h>
#include <string.h>
#include <sys/mman.h>
#include <sys/socket.h>
#include <sys/stat.h>
#include <sys/wait.h>
#include <time.h>
#include <unistd.h>

static int tried, failed, has_host;

static void expect(const char *what, long got, long wanted)
{
    tried++;
    if (got != wanted) {
        failed++;
        printf("%s: %ld, and not %ld\n", what, got, wanted);
    }
}

/* what is wanted without a host and with one */
static long either(long without, long with)
{
    return has_host ? with : without;
}

/* errno, where the answer is a failure */
static long error(long answer)
{
    return answer == -1 ? errno : 0;
}

static void write_file(const char *path, const char *text)
{
    int fd = open(path, O_WRONLY | O_CREAT | O_TRUNC, 0666);
    expect(path, write(fd, text, strlen(text)), (long)strlen(text));
    close(fd);
}

static long length_of(const char *path)
{
    struct stat found;
    return stat(path, &found) == 0 ? (long)found.st_size : -errno;
}

static long number_of(const char *path)
{
    struct stat found;
    return stat(path, &found) == 0 ? (long)found.st_ino : -errno;
}

static void try_paths(void)
{
    char folder[32];
    write_file("x", "abc");
    expect("./x", length_of("./x"), 3);
    expect("/x", length_of("/x"), 3);
    expect("//./x", length_of("//./x"), 3);
    expect("y/../x", length_of("y/../x"), 3);
    expect("/../x", length_of("/../x"), 3);
    expect("../x", length_of("../x"), either(-ENOENT, 3));
    expect("getcwd", strcmp(getcwd(folder, sizeof folder), "/"), 0);
    expect("chdir to a file", error(chdir("x")), ENOTDIR);
    expect("chdir to what is not there", error(chdir("none")), either(0, ENOENT));
    expect("chdir", chdir("/"), 0);
    expect("mkdir", error(mkdir("a", 0777)), either(ENOSYS, 0));
    expect("mkdir", error(mkdir("a/b", 0777)), either(ENOSYS, 0));
    expect("chdir", chdir("a/b"), 0);
    expect("getcwd", strcmp(getcwd(folder, sizeof folder), "/a/b"), 0);
    write_file("z", "12345");
    expect("/a/b/z", length_of("/a/b/z"), 5);
    expect("../b/z", length_of("../b/z"), 5);
    expect("../../x", length_of("../../x"), 3);
    expect("x", length_of("x"), -ENOENT);
    expect("chdir", chdir("/"), 0);
    expect("a/b/z", length_of("a/b/z"), 5);
    expect("an empty path", error(open("", O_RDONLY)), ENOENT);
    expect("the folder as a file", error(open("/", O_WRONLY)), EISDIR);
    expect("getcwd of one byte", getcwd(folder, 1) == 0 ? errno : 0, ERANGE);
}

static void try_long_paths(void)
{
    char path[300];
    memset(path, 'p', sizeof path);
    path[255] = 0;
    write_file(path, "1");
    expect("a path of 255 bytes", length_of(path), 1);
    unlink(path);
    path[255] = 'p';
    path[256] = 0;
    expect("a path of 256 bytes", error(open(path, O_RDONLY)), ENAMETOOLONG);
}

static void try_numbers(void)
{
    long x = number_of("x"), z = number_of("a/b/z");
    expect("two files have two numbers", x != z && x > 0 && z > 0, 1);
    expect("rename", rename("a/b/z", "w"), 0);
    expect("a number goes with its file", number_of("w"), z);
    expect("rename onto a file", rename("w", "x"), 0);
    expect("a number goes with its file", number_of("x"), z);
    expect("rename to its own name", rename("x", "./x"), 0);
    expect("a number stays", number_of("/x"), z);
    expect("unlink", unlink("x"), 0);
    expect("unlink again", error(unlink("x")), ENOENT);
    expect("rename of none", error(rename("x", "w")), ENOENT);
}

static void try_descriptors(void)
{
    int fd, all[64], count = 0;
    expect("read of none", error(read(40, &fd, 1)), EBADF);
    expect("dup2 of none", error(dup2(40, 5)), EBADF);
    expect("dup2 to none", error(dup2(1, 64)), EBADF);
    expect("lseek of the console", error(lseek(0, 0, SEEK_CUR)), ESPIPE);
    fd = open("/dev/null", O_WRONLY);
    expect("dup2", dup2(fd, 63), 63);
    expect("the copy is /dev/null too", write(63, (void *)1, 1000), 1000);
    expect("F_DUPFD", fcntl(fd, F_DUPFD, 30), 30);
    close(30);
    close(63);
    close(fd);
    while ((fd = open("f", O_RDWR | O_CREAT, 0666)) >= 0)
        all[count++] = fd;
    expect("all descriptors in use", errno, EMFILE);
    expect("descriptors", count, 61);
    while (count > 0)
        close(all[--count]);
    fd = open("f", O_RDWR);
    expect("a place below 0", error(lseek(fd, -1, SEEK_SET)), EINVAL);
    expect("a far place", lseek(fd, 0x7fffffff, SEEK_SET), 0x7fffffff);
    expect("too long a file", error(write(fd, "ab", 2)), EFBIG);
    lseek(fd, 0, SEEK_SET);
    expect("unreadable bytes", error(write(fd, (void *)1, 2)), EFAULT);
    lseek(fd, 0x10000000, SEEK_SET);
    expect("too few blocks", error(write(fd, "ab", 2)), ENOSPC);
    close(fd);
    unlink("f");
}

static void try_memory_and_time(void)
{
    struct timespec now;
    time_t began = time(0);
    void *before = sbrk(0);
    expect("sbrk past the heap", error((long)sbrk(0x7000000)), ENOMEM);
    expect("mmap past the heap", error((long)mmap(0, 0x7000000, PROT_READ, MAP_PRIVATE | MAP_ANONYMOUS, -1, 0)), ENOMEM);
    expect("the break stays", sbrk(0) == before, 1);
    expect("time goes", began > 1600000000, 1);
    sleep(1);
    expect("time moves", time(0) > began, either(0, 1));
    expect("clock_gettime", clock_gettime(CLOCK_REALTIME, &now), 0);
    expect("its time moves", now.tv_sec > began, either(0, 1));
    expect("clock", clock() > 0, either(0, 1));
}

static void try_devices(void)
{
    struct stat found;
    char bytes[2] = "xy";
    int fd = open("/dev/zero", O_RDWR);
    expect("/dev/zero", read(fd, bytes, 2) == 2 && bytes[0] == 0 && bytes[1] == 0, 1);
    expect("a write to /dev/zero", write(fd, (void *)1, 1000), 1000);
    close(fd);
    fd = open("/dev/urandom", O_RDONLY);
    expect("/dev/urandom", error(fd), either(ENOENT, 0));
    close(fd);
    expect("/tmp", stat("/tmp", &found) == 0 && S_ISDIR(found.st_mode), 1);
    expect(".", stat(".", &found) == 0 && S_ISDIR(found.st_mode), 1);
    expect("/dev/null", stat("/dev/null", &found) == 0 && S_ISCHR(found.st_mode), 1);
    expect("isatty", isatty(0) || isatty(1) || isatty(2), 0);
    expect("isatty", errno, ENOTTY);
    setenv("NESTED_TTY", "1", 1);
    expect("isatty", isatty(1), 1);
    expect("isatty", isatty(2), 0);
    setenv("NESTED_SEED", "seed", 1);
    fd = open("/dev/urandom", O_RDONLY);
    expect("/dev/urandom with a seed", read(fd, bytes, 2), 2);
    close(fd);
    expect("getentropy", getentropy(bytes, 2), 0);
}

static int polled(int fd, int events)
{
    struct pollfd it = { fd, (short)events, 0 };
    return poll(&it, 1, 0) == 0 ? 0 : it.revents;
}

static void try_pipes(void)
{
    static char many[70000];
    struct stat found;
    int ends[2], copy;
    char bytes[4] = "";
    expect("pipe", pipe(ends), 0);
    expect("a pipe is one", fstat(ends[0], &found) == 0 && S_ISFIFO(found.st_mode), 1);
    expect("lseek of a pipe", error(lseek(ends[0], 0, SEEK_CUR)), ESPIPE);
    expect("a read that would wait for ever", error(read(ends[0], bytes, 1)), EDEADLK);
    expect("F_SETFL", fcntl(ends[0], F_SETFL, fcntl(ends[0], F_GETFL) | O_NONBLOCK), 0);
    expect("F_GETFL", fcntl(ends[0], F_GETFL), O_RDONLY | O_NONBLOCK);
    expect("a read of nothing", error(read(ends[0], bytes, 1)), EAGAIN);
    expect("poll of nothing", polled(ends[0], POLLIN), 0);
    expect("a write to the end that is read", error(write(ends[0], "x", 1)), EBADF);
    expect("a write", write(ends[1], "abcd", 4), 4);
    expect("poll", polled(ends[0], POLLIN), POLLIN);
    expect("a read", read(ends[0], bytes, 3) == 3 && memcmp(bytes, "abc", 3) == 0, 1);
    copy = dup(ends[1]);
    close(ends[1]);
    expect("a write of much", write(copy, many, sizeof many), 65535);
    expect("poll of a full pipe", polled(copy, POLLOUT), 0);
    expect("a write that would wait for ever", error(write(copy, "x", 1)), EDEADLK);
    close(copy);
    expect("a read of what is left", read(ends[0], many, sizeof many), 65536);
    expect("the end", read(ends[0], bytes, 1), 0);
    close(ends[0]);
    expect("pipe2", pipe2(ends, O_CLOEXEC | O_NONBLOCK), 0);
    close(ends[0]);
    signal(SIGPIPE, SIG_IGN);
    expect("a write that nobody reads", error(write(ends[1], "x", 1)), EPIPE);
    close(ends[1]);
}

static void try_folders(void)
{
    DIR *folder = opendir("/");
    expect("opendir", folder == 0 ? errno : 0, either(ENOSYS, 0));
    if (folder != 0)
        closedir(folder);
    expect("mkdir", error(mkdir("d", 0777)), either(ENOSYS, 0));
    expect("mkdir of a folder in none", error(mkdir("e/e", 0777)), either(ENOSYS, ENOENT));
    write_file("d/x", "1");
    expect("a folder by its slash", length_of("d/"), either(-ENOENT, 0));
    expect("a folder to read", error(open("d", O_RDONLY)), either(ENOENT, 0));
    expect("rmdir of a full folder", error(rmdir("d")), either(ENOSYS, ENOTEMPTY));
    expect("unlink", unlink("d/x"), 0);
    expect("rmdir", error(rmdir("d")), either(ENOSYS, 0));
}

static void try_open_folder(void)
{
    struct stat found;
    int fd = open(".", O_RDONLY | O_DIRECTORY), file = openat(fd, "x", O_RDWR | O_CREAT, 0666);
    DIR *folder = fdopendir(fd);
    expect("fdopendir", folder == 0 ? errno : 0, either(ENOSYS, 0));
    expect("an open folder", fstat(fd, &found) == 0 && S_ISDIR(found.st_mode), 1);
    expect("fstatat", fstatat(fd, "x", &found, 0) == 0 && S_ISREG(found.st_mode), 1);
    expect("fchdir", fchdir(fd), 0);
    expect("read of a folder", error(read(fd, &found, 1)), EISDIR);
    expect("unlinkat", unlinkat(fd, "x", 0), 0);
    expect("a folder to write", error(open(".", O_WRONLY)), EISDIR);
    expect("close", close(file), 0);
    expect("close of a folder", folder != 0 ? closedir(folder) : close(fd), 0);
}

static void try_missing(void)
{
    pthread_t thread;
    expect("link", error(link("x", "l")), ENOSYS);
    expect("symlink", error(symlink("x", "l")), ENOSYS);
    expect("fork", error(fork()), ENOSYS);
    expect("a shared mapping", error((long)mmap(0, 4096, PROT_READ | PROT_WRITE, MAP_SHARED, 0, 0)), ENODEV);
    expect("socket", error(socket(AF_INET, SOCK_STREAM, 0)), EAFNOSUPPORT);
    expect("a descriptor that is no socket", error(listen(1, 1)), ENOTSOCK);
    expect("pthread_create", pthread_create(&thread, 0, 0, 0), EAGAIN);
    expect("dlopen", dlopen("x", RTLD_NOW) == 0 && dlerror() != 0, 1);
    expect("wait", error(wait(0)), ECHILD);
    expect("system", system("true"), -1);
    expect("popen", popen("true", "r") == 0, 1);
}

int main(int argc, char **argv)
{
    has_host = argc > 1 && strcmp(argv[1], "host") == 0;
    try_paths();
    try_long_paths();
    try_numbers();
    try_descriptors();
    try_memory_and_time();
    try_devices();
    try_pipes();
    try_folders();
    try_open_folder();
    try_missing();
    printf("%d tried, %d failed\n", tried, failed);
    return failed != 0;
}
