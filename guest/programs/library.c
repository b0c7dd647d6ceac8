/*
 * Tries the library, part by part. It prints the same where it is compiled for the machine that compiles it, so guest/try compares the two.
 * With the word `abort` or `kill` it ends by that.
 */
#include <errno.h>
#include <fcntl.h>
#include <fnmatch.h>
#include <inttypes.h>
#include <limits.h>
#include <math.h>
#include <regex.h>
#include <setjmp.h>
#include <signal.h>
#include <stdarg.h>
#include <stdio.h>
#include <stdlib.h>
#include <string.h>
#include <sys/stat.h>
#include <time.h>
#include <unistd.h>

static uint64_t state = 1;

/* Knuth's MMIX generator */
static uint64_t next_number(void)
{
    state = state * 6364136223846793005u + 1442695040888963407u;
    return state ^ state >> 33;
}

static double double_of(uint64_t bits)
{
    double made;
    memcpy(&made, &bits, sizeof made);
    return made;
}

static uint64_t bits_of(double number)
{
    uint64_t bits;
    memcpy(&bits, &number, sizeof bits);
    return bits;
}

/* The checksum of a text, in which it shows that two long outputs are the same. */
static uint32_t sum(uint32_t before, const char *text)
{
    while (*text)
        before = (before ^ (unsigned char)*text++) * 16777619u;
    return before;
}

static void try_printf(void)
{
    static const double numbers[] = { 0, -0.0, 1, 0.1, 2.5, 3.5, -1e10, 1e100, 5e-324, 1.7976931348623157e308, 123456.789, 1e15, 1e16, 1e17 };
    for (size_t i = 0; i < sizeof numbers / sizeof *numbers; i++)
        printf("%g|%.0f|%12.4e|%-24.17g|%+.3f|%.13a\n", numbers[i], numbers[i], numbers[i], numbers[i], fmod(numbers[i], 1e6),
               isnormal(numbers[i]) ? numbers[i] : 0);
    printf("%f %f %f\n", (double)INFINITY, -(double)INFINITY, fabs(strtod("nan", 0)));
    printf("%5d|%-5d|%05d|%+d|%x|%#o|%c|%10.3s|%%|%zu|%" PRId64 "|%" PRIu64 "\n", 42, 42, 42, 42, 0xbeef, 8, 'c', "texts", sizeof(char),
           INT64_MIN, UINT64_MAX);
    printf("%*d|%.*s|%hhd|%hd|%lld\n", 7, 1, 3, "abcdef", (signed char)200, (short)70000, 1LL << 40);
}

static void try_round_trips(void)
{
    uint32_t texts = 2166136261u;
    int wrong = 0;
    for (int i = 0; i < 2000; i++) {
        uint64_t bits = next_number();
        double number = double_of(bits);
        char text[40];
        if (!isfinite(number))
            continue;
        snprintf(text, sizeof text, "%.17g", number);
        texts = sum(texts, text);
        wrong += bits_of(strtod(text, 0)) != bits;
    }
    printf("round trips: %d wrong, texts %08" PRIx32 "\n", wrong, texts);
}

static void try_wide_integers(void)
{
    uint64_t mixed = 0;
    for (int i = 0; i < 2000; i++) {
        uint64_t a = next_number(), b = next_number() >> (i % 64) | 1;
        int64_t c = (int64_t)a, d = (int64_t)b;
        mixed += a / b + a % b + (uint64_t)(c / d) * 3 + (uint64_t)(c % d) * 5 + a * b + (a >> (i & 63)) + (uint64_t)(c >> (i & 63)) + (b << (i & 63));
        mixed = mixed << 7 | mixed >> 57;
    }
    printf("64 bits: %016" PRIx64 "\n", mixed);
}

static void try_floats(void)
{
    uint64_t mixed = 0;
    for (int i = 0; i < 2000; i++) {
        double a = (double)(int64_t)next_number(), b = (double)(next_number() >> 40) + 1;
        float f = (float)a / (float)b;
        double results[] = { a + b, a - b, a * b, a / b, f, sqrt(b), (double)(int)(b / 3), (double)(uint64_t)b, floor(a / b), a < b, a >= b };
        for (size_t k = 0; k < sizeof results / sizeof *results; k++)
            mixed = (mixed ^ bits_of(results[k])) * 1099511628211u;
    }
    printf("floats: %016" PRIx64 "\n", mixed);
    printf("functions: %.9g %.9g %.9g %.9g %.9g %.9g %.9g\n", sin(1), cos(2), atan2(1, 3), exp(2.5), log(10), pow(2, 0.5), fmod(17.5, 3));
}

static jmp_buf place;

static int fall(int depth)
{
    if (depth == 0)
        longjmp(place, 7);
    return depth < 0 ? 0 : fall(depth - 1) + 1;
}

static void try_setjmp(void)
{
    volatile int kept = 3;
    int value = setjmp(place);
    if (value == 0) {
        kept = 4;
        fall(10);
    }
    printf("setjmp: %d, kept %d\n", value, kept);
}

static int by_value(const void *a, const void *b)
{
    uint32_t x = *(const uint32_t *)a, y = *(const uint32_t *)b;
    return (x > y) - (x < y);
}

static void try_sorting(void)
{
    static uint32_t numbers[5000];
    uint32_t wanted, mixed = 0, *found;
    int wrong = 0;
    for (int i = 0; i < 5000; i++)
        numbers[i] = (uint32_t)next_number();
    wanted = numbers[1234];
    qsort(numbers, 5000, sizeof *numbers, by_value);
    for (int i = 0; i < 5000; i++) {
        wrong += i > 0 && numbers[i - 1] > numbers[i];
        mixed = mixed * 31 + numbers[i];
    }
    found = bsearch(&wanted, numbers, 5000, sizeof *numbers, by_value);
    printf("qsort: %d wrong, sum %08" PRIx32 ", found %d\n", wrong, mixed, found != 0 && *found == wanted);
}

/* Takes all of the heap twice. Elsewhere there is no such limit, so the line is said without it. */
static void try_malloc(void)
{
    int is_well = 1;
#ifdef __nested__
    int blocks[2] = { 0, 0 };
    for (int turn = 0; turn < 2; turn++) {
        char *last = 0, *block;
        errno = 0;
        while ((block = malloc(16384)) != 0) {
            memcpy(block, &last, sizeof last);
            memset(block + sizeof last, turn, 16384 - sizeof last);
            last = block;
            blocks[turn]++;
        }
        is_well = is_well && errno == ENOMEM;
        while (last != 0) {
            memcpy(&block, last, sizeof block);
            free(last);
            last = block;
        }
    }
    is_well = is_well && blocks[0] > 10 && blocks[1] >= blocks[0];
#endif
    printf("malloc: all of it, then ENOMEM, and all of it again: %d\n", is_well);
}

static void put_line(const char *name, const char *mode, const char *line)
{
    FILE *file = fopen(name, mode);
    if (file == 0) {
        printf("fopen %s: %d\n", name, errno);
        return;
    }
    fputs(line, file);
    fclose(file);
}

static void show(const char *name)
{
    char line[80];
    FILE *file = fopen(name, "r");
    printf("%s:", name);
    if (file == 0) {
        printf(" errno %d\n", errno);
        return;
    }
    while (fgets(line, sizeof line, file))
        printf(" [%.*s]", (int)strcspn(line, "\n"), line);
    printf("\n");
    fclose(file);
}

/* Says what a call came to, and the number of an error that all systems number alike. */
static long say(const char *what, long result)
{
    printf("%s: %ld %d\n", what, result, result == -1 && errno <= ENOTTY ? errno : 0);
    return result;
}

static void try_names(void)
{
    struct stat found;
    put_line("one", "w", "first\n");
    put_line("./one", "a", "second\n");
    show("one");
    say("rename", rename("one", "two"));
    show("one");
    show("./two");
    say("stat", stat("two", &found));
    say("length", (long)found.st_size);
    say("a file", S_ISREG(found.st_mode));
    say("stat", stat(".", &found));
    say("a folder", S_ISDIR(found.st_mode));
    say("access", access("two", R_OK));
    say("access", access("three", F_OK));
}

static void try_descriptors(void)
{
    struct stat found;
    char bytes[8] = "";
    int fd = open("two", O_RDWR);
    say("unlink of an open file", unlink("two"));
    say("lseek", (long)lseek(fd, -7, SEEK_END));
    say("read", (long)read(fd, bytes, 6));
    printf("%s\n", bytes);
    say("dup2", dup2(fd, 20));
    say("lseek", (long)lseek(20, 0, SEEK_CUR));
    say("access", fcntl(20, F_GETFL) & O_ACCMODE);
    say("ftruncate", ftruncate(20, 100));
    say("fstat", fstat(fd, &found));
    say("length", (long)found.st_size);
    say("isatty", isatty(fd) == 1);
    say("close", close(fd));
    say("close", close(20));
    say("close", close(20));
    say("exclusive", (fd = open("three", O_CREAT | O_EXCL | O_WRONLY, 0600)) >= 0);
    say("exclusive", open("three", O_CREAT | O_EXCL | O_WRONLY, 0600));
    say("read", (long)read(fd, bytes, 1));
    say("close", close(fd));
    say("remove", remove("three"));
    say("remove", remove("three"));
}

static void try_devices_and_locks(void)
{
    struct flock lock = { .l_type = F_WRLCK, .l_whence = SEEK_SET };
    char bytes[4];
    struct stat found;
    int fd = open("/dev/null", O_RDWR);
    FILE *file = tmpfile();
    say("write to /dev/null", (long)write(fd, "text", 4));
    say("read", (long)read(fd, bytes, 4));
    say("fstat", fstat(fd, &found));
    say("a device", S_ISCHR(found.st_mode));
    say("close", close(fd));
    say("lock", fcntl(fileno(file), F_SETLK, &lock));
    say("lock", fcntl(fileno(file), F_GETLK, &lock));
    say("free", lock.l_type == F_UNLCK);
    fprintf(file, "%d %s", 17, "words");
    rewind(file);
    say("fscanf", fscanf(file, "%*d %3s", bytes));
    printf("%s\n", bytes);
    fclose(file);
}

static volatile int caught;

static void catch(int signal)
{
    caught += signal;
}

static void try_signals(void)
{
    sigset_t set;
    struct sigaction action = { .sa_handler = catch };
    sigemptyset(&action.sa_mask);
    sigaction(SIGTERM, &action, 0);
    raise(SIGTERM);
    kill(getpid(), SIGTERM);
    printf("caught: %d", caught);
    sigemptyset(&set);
    sigaddset(&set, SIGTERM);
    sigprocmask(SIG_BLOCK, &set, 0);
    raise(SIGTERM);
    printf(" %d", caught);
    sigprocmask(SIG_UNBLOCK, &set, 0);
    printf(" %d", caught);
    signal(SIGTERM, SIG_IGN);
    raise(SIGTERM);
    printf(" %d\n", caught);
}

static void try_texts(void)
{
    char text[80];
    regex_t expression;
    regmatch_t found[2];
    time_t moment = 1000000000;
    strftime(text, sizeof text, "%Y-%m-%d %H:%M:%S %j %a", gmtime(&moment));
    printf("gmtime: %s\n", text);
    printf("strtol: %ld %lu %ld\n", strtol("-0x7f", 0, 0), strtoul("777", 0, 8), strtol("99999999999999999999", 0, 10) == LONG_MAX ? 1L : 0L);
    printf("fnmatch: %d %d\n", fnmatch("*.[ch]", "library.c", 0), fnmatch("*.[ch]", "library.cc", 0) != 0);
    regcomp(&expression, "([0-9]+)-[a-z]*$", REG_EXTENDED);
    say("regex", regexec(&expression, "text 123-abc", 2, found, 0));
    printf("from %d to %d\n", (int)found[1].rm_so, (int)found[1].rm_eo);
    regfree(&expression);
    strcpy(text, "one,two;three");
    for (char *part = strtok(text, ",;"); part; part = strtok(0, ",;"))
        printf("%s ", part);
    printf("\n");
}

static void say_goodbye(void)
{
    printf("at exit\n");
}

int main(int argc, char **argv)
{
    if (argc > 1 && strcmp(argv[1], "abort") == 0)
        abort();
    if (argc > 1 && strcmp(argv[1], "kill") == 0)
        kill(getpid(), SIGTERM);
    atexit(say_goodbye);
    try_printf();
    try_round_trips();
    try_wide_integers();
    try_floats();
    try_setjmp();
    try_sorting();
    try_malloc();
    try_names();
    try_descriptors();
    try_devices_and_locks();
    try_signals();
    try_texts();
    printf("environment: %s\n", getenv("GREETING") ? getenv("GREETING") : "none");
    for (int i = 1; i < argc; i++)
        printf("word %d: %s\n", i, argv[i]);
    return 3;
}
