/* Tries what programs expect of POSIX, BSD and GNU beside ISO C. It prints what a native build prints. */
#define _GNU_SOURCE
#include <arpa/inet.h>
#include <byteswap.h>
#include <dlfcn.h>
#include <endian.h>
#include <err.h>
#include <errno.h>
#include <fcntl.h>
#include <fnmatch.h>
#include <glob.h>
#include <getopt.h>
#include <iconv.h>
#include <libgen.h>
#include <libintl.h>
#include <locale.h>
#include <netdb.h>
#include <netinet/in.h>
#include <pthread.h>
#include <regex.h>
#include <semaphore.h>
#include <setjmp.h>
#include <signal.h>
#include <stdio.h>
#include <stdlib.h>
#include <string.h>
#include <sys/mman.h>
#include <sys/socket.h>
#include <sys/stat.h>
#include <sys/uio.h>
#include <time.h>
#include <uchar.h>
#include <unistd.h>

/* glibc's <string.h> has another basename than its <libgen.h>, which makes the name a macro */
static void try_paths(void)
{
    static const char *const paths[] = { "/usr/lib", "/usr/", "usr", "/", ".", "..", "a//b//", "///", "" };
    for (size_t i = 0; i < sizeof paths / sizeof *paths; i++) {
        char one[32], other[32];
        strcpy(one, paths[i]);
        strcpy(other, paths[i]);
        printf("%s: %s %s\n", paths[i], dirname(one), basename(other));
    }
}

static void try_lines(void)
{
    FILE *file = fopen("posix.tmp", "w+");
    char *line = 0;
    size_t room = 0;
    fputs("first line\nsecond;third\nlast", file);
    rewind(file);
    printf("%d", (int)getline(&line, &room, file));
    printf(" %s", line);
    printf("%d", (int)getdelim(&line, &room, ';', file));
    printf(" %s\n", line);
    while (getline(&line, &room, file) > 0)
        printf("[%s]", line);
    printf("\n");
    flockfile(file);
    putc_unlocked('!', file);
    funlockfile(file);
    free(line);
    fclose(file);
}

static void try_places(void)
{
    char text[16] = "";
    struct iovec rooms[2] = { { text, 3 }, { text + 4, 4 } };
    int fd = open("posix.tmp", O_RDWR | O_TRUNC | O_CREAT, 0666);
    printf("%d", (int)pwrite(fd, "0123456789", 10, 2));
    printf(" %d", (int)lseek(fd, 0, SEEK_CUR));
    printf(" %d", (int)pread(fd, text, 5, 4));
    printf(" %s\n", text);
    memset(text, 0, sizeof text);
    lseek(fd, 3, SEEK_SET);
    printf("%d", (int)readv(fd, rooms, 2));
    printf(" %s %s\n", text, text + 4);
    printf("%d", posix_fallocate(fd, 0, 100));
    printf(" %d\n", (int)lseek(fd, 0, SEEK_END));
    close(fd);
    unlink("posix.tmp");
}

static void try_mapping(void)
{
    char *bytes = mmap(0, 10000, PROT_READ | PROT_WRITE, MAP_PRIVATE | MAP_ANONYMOUS, -1, 0), *file;
    int fd = open("posix.tmp", O_RDWR | O_CREAT, 0666);
    bytes[9999] = 1;
    printf("%d", bytes[0]);
    printf(" %d\n", munmap(bytes, 10000));
    write(fd, "mapped", 6);
    file = mmap(0, 6, PROT_READ, MAP_PRIVATE, fd, 0);
    printf("%.6s %d\n", file, file[6]);
    munmap(file, 6);
    close(fd);
    unlink("posix.tmp");
    void *place;
    printf("%d", posix_memalign(&place, 256, 100));
    printf(" %d\n", (int)((unsigned long)place % 256));
    printf("%d\n", posix_memalign(&place, 3, 100) == EINVAL);
}

static void try_addresses(void)
{
    static const char *const sixes[] = { "::", "::1", "1::", "1:2:3:4:5:6:7:8", "fe80::1:2", "::ffff:1.2.3.4", "1:0:0:2::3", ":1", "1:::2", "12345::" };
    static const char *const fours[] = { "1.2.3.4", "127.1", "0x7f.0.0.1", "256.1.1.1", "1.2.3.4.5", "x" };
    struct in6_addr six;
    struct in_addr four;
    char text[INET6_ADDRSTRLEN];
    struct addrinfo *found;
    struct addrinfo hints = { .ai_flags = AI_NUMERICHOST, .ai_socktype = SOCK_STREAM };
    for (size_t i = 0; i < sizeof sixes / sizeof *sixes; i++) {
        int good = inet_pton(AF_INET6, sixes[i], &six);
        printf("%s: %d %s\n", sixes[i], good, good == 1 ? inet_ntop(AF_INET6, &six, text, sizeof text) : "");
    }
    for (size_t i = 0; i < sizeof fours / sizeof *fours; i++) {
        int good = inet_aton(fours[i], &four);
        printf("%s: %d %s\n", fours[i], good, good ? inet_ntoa(four) : "");
    }
    printf("%08x %04x\n", (unsigned)htonl(0x11223344) == be32toh(0x11223344), ntohs(htons(0x1122)));
    printf("%x %x\n", bswap_32(0x11223344), (unsigned)bswap_16(0x1122));
    printf("%d", getaddrinfo("10.0.0.1", "80", &hints, &found));
    printf(" %s %d\n", inet_ntoa(((struct sockaddr_in *)found->ai_addr)->sin_addr),
        ntohs(((struct sockaddr_in *)found->ai_addr)->sin_port));
    freeaddrinfo(found);
    printf("%s\n", gai_strerror(getaddrinfo("no.such.name.invalid", 0, &hints, &found)));
}

static int runs;

static void run_once(void)
{
    runs++;
}

static void try_threads(void)
{
    static pthread_once_t once = PTHREAD_ONCE_INIT;
    static pthread_mutex_t mutex = PTHREAD_MUTEX_INITIALIZER;
    pthread_mutexattr_t attributes;
    pthread_mutex_t recursive;
    pthread_key_t key;
    sem_t semaphore;
    pthread_once(&once, run_once);
    pthread_once(&once, run_once);
    printf("%d\n", runs);
    printf("%d", pthread_mutex_lock(&mutex));
    printf(" %d", pthread_mutex_trylock(&mutex) == EBUSY);
    printf(" %d", pthread_mutex_unlock(&mutex));
    printf(" %d\n", pthread_mutex_destroy(&mutex));
    pthread_mutexattr_init(&attributes);
    pthread_mutexattr_settype(&attributes, PTHREAD_MUTEX_RECURSIVE);
    pthread_mutex_init(&recursive, &attributes);
    printf("%d", pthread_mutex_lock(&recursive));
    printf(" %d", pthread_mutex_lock(&recursive));
    printf(" %d", pthread_mutex_unlock(&recursive));
    printf(" %d\n", pthread_mutex_unlock(&recursive));
    pthread_key_create(&key, 0);
    pthread_setspecific(key, "value");
    printf("%s %d\n", (char *)pthread_getspecific(key), pthread_equal(pthread_self(), pthread_self()) != 0);
    sem_init(&semaphore, 0, 1);
    printf("%d", sem_wait(&semaphore));
    printf(" %d", sem_trywait(&semaphore));
    printf(" %d\n", errno == EAGAIN);
}

static sigjmp_buf jump;
static volatile sig_atomic_t caught;

static void jump_back(int signal)
{
    caught = signal;
    siglongjmp(jump, 7);
}

static void with_words(int signal, siginfo_t *sent, void *context)
{
    (void)context;
    caught = sent->si_signo == signal;
}

static void try_signals(void)
{
    struct sigaction action;
    sigset_t set;
    memset(&action, 0, sizeof action);
    action.sa_handler = jump_back;
    sigaction(SIGUSR1, &action, 0);
    int result = sigsetjmp(jump, 1);
    if (result == 0)
        raise(SIGUSR1);
    sigprocmask(SIG_BLOCK, 0, &set);
    printf("%d %d %d\n", result, caught == SIGUSR1, sigismember(&set, SIGUSR1));
    action.sa_sigaction = with_words;
    action.sa_flags = SA_SIGINFO | SA_RESTART;
    sigaction(SIGUSR2, &action, 0);
    kill(getpid(), SIGUSR2);
    printf("%d %s\n", caught, strsignal(SIGINT));
    sigemptyset(&set);
    sigaddset(&set, SIGUSR2);
    sigprocmask(SIG_BLOCK, &set, 0);
    raise(SIGUSR2);
    printf("%d", sigwait(&set, &result));
    printf(" %d\n", result == SIGUSR2);
}

static void try_characters(void)
{
    static const char text[] = "a\xc3\xa9\xe2\x82\xac\xf0\x9f\x98\x80";
    mbstate_t state;
    char16_t half;
    char bytes[16];
    const char *at = text, *end = text + sizeof text;
    size_t got;
    memset(&state, 0, sizeof state);
    while ((got = mbrtoc16(&half, at, (size_t)(end - at), &state)) != 0) {
        printf("%x ", half);
        if (got < (size_t)-3)
            at += got;
    }
    memset(&state, 0, sizeof state);
    printf("%d", (int)c16rtomb(bytes, 0xd83d, &state));
    printf(" %d\n", (int)c16rtomb(bytes, 0xde00, &state));
}

static void try_iconv(void)
{
    char in[] = "\xe9t\xe9", out[16] = "";
    char *from = in, *to = out;
    size_t left = 3, room = sizeof out;
    iconv_t turn = iconv_open("UTF-8", "ISO-8859-1");
    printf("%d", (int)iconv(turn, &from, &left, &to, &room));
    printf(" %s %d\n", out, (int)room);
    iconv_close(turn);
}

static void try_words(int argc, char **argv)
{
    static const struct option options[] = { { "long", required_argument, 0, 'l' }, { "flag", no_argument, 0, 'f' }, { 0, 0, 0, 0 } };
    int letter;
    while ((letter = getopt_long(argc, argv, "ab:", options, 0)) != -1)
        printf("%c %s\n", letter, optarg != 0 ? optarg : "");
    while (optind < argc)
        printf("left %s\n", argv[optind++]);
}

static void try_patterns(void)
{
    regex_t pattern;
    regmatch_t found[2];
    printf("%d\n", regcomp(&pattern, "([a-z]+)[0-9]", REG_EXTENDED));
    printf("%d", regexec(&pattern, "--ab7", 2, found, 0));
    printf(" %d %d\n", (int)found[1].rm_so, (int)found[1].rm_eo);
    regfree(&pattern);
    printf("%d %d\n", fnmatch("*.c", "x.c", 0), fnmatch("*.c", "x.h", 0) != 0);
}

static void try_glob(void)
{
    glob_t found;
    printf("%d\n", glob("none*", 0, 0, &found) == GLOB_NOMATCH);
    printf("%d", glob("no\\ne*", GLOB_NOCHECK, 0, &found));
    printf(" %d", glob("no[n]\\e", GLOB_APPEND | GLOB_NOCHECK | GLOB_NOESCAPE, 0, &found));
    for (size_t i = 0; i < (size_t)found.gl_pathc; i++)
        printf(" %s", found.gl_pathv[i]);
    printf("\n");
    globfree(&found);
}

static void try_time(void)
{
    struct tm parts = { .tm_year = 100, .tm_mon = 1, .tm_mday = 29, .tm_hour = 12 };
    struct timespec now;
    printf("%lld\n", (long long)timegm(&parts));
    printf("%d %d\n", clock_gettime(CLOCK_MONOTONIC, &now), clock_gettime(CLOCK_PROCESS_CPUTIME_ID, &now));
    setenv("TZ", "EST5EDT", 1);
    tzset();
    printf("%ld %d\n", timezone, daylight);
    setenv("TZ", "UTC0", 1);
    tzset();
}

static void try_rest(void)
{
    char name[] = "posix.XXXXXX", whole[4096];
    int fd = mkstemp(name);
    struct stat found;
    printf("%d %d\n", fd >= 0, fstat(fd, &found) == 0 && S_ISREG(found.st_mode));
    printf("%d\n", realpath(name, whole) != 0 && strcmp(strrchr(whole, '/') + 1, name) == 0);
    printf("%d", realpath("no.such.file", whole) == 0);
    printf(" %d\n", errno == ENOENT);
    unlink(name);
    close(fd);
    printf("%s %s\n", gettext("text"), ngettext("one", "many", 2));
    printf("%d", dlopen("libnothing.so", RTLD_NOW) == 0);
    printf(" %d\n", dlerror() != 0);
    printf("%ld %d\n", pathconf("/", _PC_NAME_MAX), sysconf(_SC_PAGESIZE) == 4096);
    warnx("a warning of %d", 1);
}

int main(int argc, char **argv)
{
    setlocale(LC_ALL, "C.UTF-8");
    setvbuf(stdout, 0, _IOLBF, 4096);
    try_paths();
    try_lines();
    try_places();
    try_mapping();
    try_addresses();
    try_threads();
    try_signals();
    try_characters();
    try_iconv();
    try_words(argc, argv);
    try_patterns();
    try_glob();
    try_time();
    try_rest();
    return 0;
}
