/* Tries what a guest has on a host that answers files of its own: folders, a clock that moves, random bytes. It prints what a native build prints. */
#define _GNU_SOURCE
#include <dirent.h>
#include <errno.h>
#include <fcntl.h>
#include <ftw.h>
#include <glob.h>
#include <stdio.h>
#include <stdlib.h>
#include <string.h>
#include <sys/random.h>
#include <sys/stat.h>
#include <time.h>
#include <unistd.h>

static void write_file(const char *path, const char *text)
{
    FILE *file = fopen(path, "w");
    if (file == 0 || fputs(text, file) < 0 || fclose(file) != 0)
        printf("%s: %s\n", path, strerror(errno));
}

static void list(const char *path)
{
    struct dirent **found;
    int count = scandir(path, &found, 0, alphasort);
    printf("%s:", path);
    for (int i = 0; i < count; i++) {
        printf(" %s%s", found[i]->d_name, found[i]->d_type == DT_DIR ? "/" : "");
        free(found[i]);
    }
    printf(count < 0 ? " %s\n" : "\n", strerror(errno));
    if (count >= 0)
        free(found);
}

static void tell(const char *path)
{
    struct stat found;
    if (stat(path, &found) < 0)
        printf("%s: %s\n", path, strerror(errno));
    else
        printf("%s: %s %d, changed %d\n", path, S_ISDIR(found.st_mode) ? "folder" : "file", S_ISDIR(found.st_mode) ? 0 : (int)found.st_size,
            time(0) - found.st_mtime < 600);
}

static void say(const char *what, int answer)
{
    printf("%s: %s\n", what, answer == 0 ? "done" : strerror(errno));
}

static int visit(const char *path, const struct stat *found, int kind, struct FTW *place)
{
    (void)found;
    printf("[%d %d %s]", kind, place->level, path + place->base);
    return 0;
}

static void try_folders(void)
{
    char folder[4096];
    glob_t found;
    int fd;
    say("mkdir", mkdir("one", 0777));
    say("mkdir", mkdir("one", 0777));
    say("mkdir", mkdir("none/one", 0777));
    say("mkdir", mkdir("one/two", 0777));
    write_file("one/a", "abc");
    write_file("one/two/b", "12345");
    list("one");
    list("./one/two/..");
    list("one/");
    list("none");
    list("one/a");
    tell("one");
    tell("one/");
    tell("one/a");
    tell("one/two/../two/b");
    tell("one/none");
    say("chdir", chdir("one"));
    printf("%s\n", strrchr(getcwd(folder, sizeof folder), '/'));
    tell("a");
    tell("../one/two/b");
    list(".");
    fd = open("two", O_RDONLY | O_DIRECTORY);
    printf("%d %d\n", fd >= 0, openat(fd, "b", O_RDONLY) >= 0);
    say("fchdir", fchdir(fd));
    tell("b");
    say("chdir", chdir("../.."));
    say("rename", rename("one/two", "one/three"));
    list("one/three");
    nftw("one/three", visit, 8, FTW_DEPTH);
    printf("\n");
    printf("%d", glob("one/*", 0, 0, &found));
    printf(" %d %s\n", (int)found.gl_pathc, found.gl_pathc > 0 ? found.gl_pathv[0] : "");
    globfree(&found);
    printf("%d %d\n", glob("one/\\a", 0, 0, &found), glob("one/\\*", 0, 0, &found) == GLOB_NOMATCH);
    say("rmdir", rmdir("one/three"));
    say("rmdir", rmdir("one/a"));
    say("unlink", unlink("one/three/b"));
    say("rmdir", rmdir("one/three"));
    say("unlink", unlink("one/a"));
    say("rmdir", rmdir("one"));
    tell("one");
}

static void try_places(const char *elsewhere)
{
    char path[300], whole[4096];
    FILE *file;
    sprintf(path, "%s/host.txt", elsewhere);
    write_file(path, "elsewhere");
    tell(path);
    tell("/dev/none");
    printf("%d\n", realpath("../", whole) != 0 && strcmp(whole, "/") != 0);
    say("unlink", unlink(path));
    file = tmpfile();
    printf("%d\n", file != 0 && fputs("x", file) >= 0);
    fclose(file);
}

static void try_time(void)
{
    struct timespec before, after, wanted = { 0, 30000000 };
    clock_gettime(CLOCK_MONOTONIC, &before);
    nanosleep(&wanted, 0);
    clock_gettime(CLOCK_MONOTONIC, &after);
    printf("%d\n", (after.tv_sec - before.tv_sec) * 1000000000L + after.tv_nsec - before.tv_nsec >= 30000000);
    printf("%d %d\n", time(0) > 1600000000, clock() != (clock_t)-1);
}

static void try_random(void)
{
    unsigned char one[32], other[32];
    int fd = open("/dev/urandom", O_RDONLY);
    printf("%d", getentropy(one, sizeof one));
    printf(" %d", (int)getrandom(other, sizeof other, 0));
    printf(" %d", memcmp(one, other, sizeof one) != 0);
    printf(" %d\n", (int)read(fd, one, sizeof one));
    close(fd);
}

int main(int argc, char **argv)
{
    try_folders();
    try_places(argc > 1 ? argv[1] : "/tmp");
    try_time();
    try_random();
    printf("%d %d %d\n", isatty(0), isatty(1), isatty(2));
    return 0;
}
