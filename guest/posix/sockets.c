/* Sockets and names of the Internet, of which a guest has none. Addresses as texts are understood. */
#include "call.h"

#include <arpa/inet.h>
#include <errno.h>
#include <net/if.h>
#include <netdb.h>
#include <stdio.h>
#include <stdlib.h>
#include <string.h>
#include <sys/socket.h>
#include <unistd.h>

#pragma GCC diagnostic ignored "-Wunused-parameter"

/* ---- sockets */

static int fails(int error)
{
    errno = error;
    return -1;
}

/* No descriptor is a socket: EBADF where it is not open, else ENOTSOCK. */
static int no_socket(int fd)
{
    int other = dup(fd);
    if (other < 0 && errno == EBADF)
        return -1;
    if (other >= 0)
        close(other);
    return fails(ENOTSOCK);
}

int socket(int family, int type, int protocol)
{
    return fails(EAFNOSUPPORT);
}

int socketpair(int family, int type, int protocol, int into[2])
{
    return fails(EAFNOSUPPORT);
}

int bind(int fd, const struct sockaddr *address, socklen_t bytes)
{
    return no_socket(fd);
}

int connect(int fd, const struct sockaddr *address, socklen_t bytes)
{
    return no_socket(fd);
}

int listen(int fd, int waiting)
{
    return no_socket(fd);
}

int accept(int fd, struct sockaddr *into, socklen_t *bytes)
{
    return no_socket(fd);
}

int accept4(int fd, struct sockaddr *into, socklen_t *bytes, int flags)
{
    return no_socket(fd);
}

int getsockname(int fd, struct sockaddr *into, socklen_t *bytes)
{
    return no_socket(fd);
}

int getpeername(int fd, struct sockaddr *into, socklen_t *bytes)
{
    return no_socket(fd);
}

int getsockopt(int fd, int level, int option, void *into, socklen_t *bytes)
{
    return no_socket(fd);
}

int setsockopt(int fd, int level, int option, const void *from, socklen_t bytes)
{
    return no_socket(fd);
}

int shutdown(int fd, int how)
{
    return no_socket(fd);
}

int sockatmark(int fd)
{
    return no_socket(fd);
}

ssize_t recv(int fd, void *into, size_t bytes, int flags)
{
    return no_socket(fd);
}

ssize_t recvfrom(int fd, void *into, size_t bytes, int flags, struct sockaddr *address, socklen_t *address_bytes)
{
    return no_socket(fd);
}

ssize_t recvmsg(int fd, struct msghdr *into, int flags)
{
    return no_socket(fd);
}

ssize_t send(int fd, const void *from, size_t bytes, int flags)
{
    return no_socket(fd);
}

ssize_t sendto(int fd, const void *from, size_t bytes, int flags, const struct sockaddr *address, socklen_t address_bytes)
{
    return no_socket(fd);
}

ssize_t sendmsg(int fd, const struct msghdr *from, int flags)
{
    return no_socket(fd);
}

int getpeereid(int fd, uid_t *user, gid_t *group)
{
    return no_socket(fd);
}

/* ---- numbers and addresses */

uint32_t htonl(uint32_t number)
{
    return htobe32(number);
}

uint16_t htons(uint16_t number)
{
    return htobe16(number);
}

uint32_t ntohl(uint32_t number)
{
    return be32toh(number);
}

uint16_t ntohs(uint16_t number)
{
    return be16toh(number);
}

const struct in6_addr in6addr_any = IN6ADDR_ANY_INIT, in6addr_loopback = IN6ADDR_LOOPBACK_INIT;

/* One to four numbers, of which the last one fills what is left: a.b.c.d, a.b.c, a.b, a. */
int inet_aton(const char *text, struct in_addr *into)
{
    unsigned long parts[4], whole = 0;
    int count = 0;
    do {
        char *end;
        if (count == 4 || *text < '0' || *text > '9')
            return 0;
        parts[count++] = strtoul(text, &end, 0);
        text = end;
    } while (*text++ == '.');
    if (text[-1] != 0)
        return 0;
    for (int i = 0; i < count - 1; i++) {
        if (parts[i] > 255)
            return 0;
        whole |= parts[i] << (24 - 8 * i);
    }
    if (parts[count - 1] > 0xffffffffUL >> (8 * (count - 1)))
        return 0;
    into->s_addr = htonl(whole | parts[count - 1]);
    return 1;
}

in_addr_t inet_addr(const char *text)
{
    struct in_addr address;
    return inet_aton(text, &address) ? address.s_addr : INADDR_NONE;
}

char *inet_ntoa(struct in_addr address)
{
    static char text[INET_ADDRSTRLEN];
    return (char *)inet_ntop(AF_INET, &address, text, sizeof text);
}

static int read_four(const char *text, unsigned char *into)
{
    for (int i = 0; i < 4; i++) {
        int number = 0, digits = 0;
        while (*text >= '0' && *text <= '9' && digits < 3) {
            number = number * 10 + *text++ - '0';
            digits++;
        }
        if (digits == 0 || number > 255 || *text++ != (i < 3 ? '.' : 0))
            return 0;
        into[i] = (unsigned char)number;
    }
    return 1;
}

/* Eight groups, or fewer with one :: for those that are 0; the last two may be written as an address of four numbers. */
static int read_sixteen(const char *text, unsigned char *into)
{
    unsigned char groups[16] = { 0 };
    int at = 0, gap = -1;
    if (text[0] == ':' && *++text != ':')
        return 0;
    while (*text != 0) {
        int number = 0, digits = 0;
        const char *start = text;
        if (*text == ':') {
            if (gap >= 0)
                return 0;
            gap = at;
            text++;
            continue;
        }
        for (; strchr("0123456789abcdefABCDEF", *text) != 0 && *text != 0 && digits < 4; digits++, text++)
            number = number * 16 + (*text <= '9' ? *text - '0' : (*text | 0x20) - 'a' + 10);
        if (*text == '.' && at <= 12 && read_four(start, groups + at)) {
            at += 4;
            break;
        }
        if (digits == 0 || at == 16 || (*text != 0 && *text != ':') || (*text == ':' && text[1] == 0))
            return 0;
        groups[at++] = (unsigned char)(number >> 8);
        groups[at++] = (unsigned char)number;
        text += *text == ':';
    }
    if (gap < 0 ? at != 16 : at == 16)
        return 0;
    memset(into, 0, 16);
    memcpy(into, groups, (size_t)(gap < 0 ? at : gap));
    if (gap >= 0)
        memcpy(into + 16 - (at - gap), groups + gap, (size_t)(at - gap));
    return 1;
}

int inet_pton(int family, const char *text, void *into)
{
    unsigned char bytes[16];
    if (family != AF_INET && family != AF_INET6)
        return fails(EAFNOSUPPORT);
    if (!(family == AF_INET ? read_four(text, bytes) : read_sixteen(text, bytes)))
        return 0;
    memcpy(into, bytes, family == AF_INET ? 4 : 16);
    return 1;
}

/* Where the longest row of two or more groups of 0 begins, or -1, and how long it is. */
static int longest_gap(const unsigned char *bytes, int *length)
{
    int best = -1;
    *length = 1;
    for (int i = 0; i < 8; i++) {
        int end = i;
        while (end < 8 && bytes[2 * end] == 0 && bytes[2 * end + 1] == 0)
            end++;
        if (end - i > *length) {
            best = i;
            *length = end - i;
        }
    }
    return best;
}

static void write_sixteen(const unsigned char *bytes, char *into)
{
    int length, gap = longest_gap(bytes, &length);
    char *end = into;
    *end = 0;
    if (gap == 0 && (length == 6 || (length == 5 && bytes[10] == 0xff && bytes[11] == 0xff))) {
        sprintf(into, "::%s%d.%d.%d.%d", length == 5 ? "ffff:" : "", bytes[12], bytes[13], bytes[14], bytes[15]);
        return;
    }
    for (int i = 0; i < 8; i++) {
        if (i == gap) {
            end += sprintf(end, "::");
            i += length - 1;
        } else {
            end += sprintf(end, "%s%x", i == 0 || end[-1] == ':' ? "" : ":", bytes[2 * i] << 8 | bytes[2 * i + 1]);
        }
    }
}

const char *inet_ntop(int family, const void *address, char *into, socklen_t bytes)
{
    const unsigned char *parts = address;
    char text[INET6_ADDRSTRLEN];
    if (family == AF_INET) {
        sprintf(text, "%d.%d.%d.%d", parts[0], parts[1], parts[2], parts[3]);
    } else if (family == AF_INET6) {
        write_sixteen(parts, text);
    } else {
        errno = EAFNOSUPPORT;
        return 0;
    }
    if (strlen(text) >= bytes) {
        errno = ENOSPC;
        return 0;
    }
    return strcpy(into, text);
}

/* ---- names */

int h_errno;

static void *no_host(void)
{
    h_errno = HOST_NOT_FOUND;
    return 0;
}

/* An address as a text, and a port as a number, make a list of one. */
struct known {
    struct addrinfo info;
    union {
        struct sockaddr_in four;
        struct sockaddr_in6 six;
    } address;
};

static int port_of(const char *service)
{
    char *end;
    long port = service != 0 && *service != 0 ? strtol(service, &end, 10) : (end = "", 0);
    return *end == 0 && port >= 0 && port <= 65535 ? (int)port : -1;
}

static int read_host(struct known *into, const char *host, int family, int is_passive)
{
    if (host == 0)
        host = family == AF_INET6 ? (is_passive ? "::" : "::1") : is_passive ? "0.0.0.0" : "127.0.0.1";
    if (family != AF_INET6 && inet_pton(AF_INET, host, &into->address.four.sin_addr) == 1) {
        into->address.four.sin_family = AF_INET;
        into->info.ai_addrlen = sizeof into->address.four;
        return 1;
    }
    into->address.six.sin6_family = AF_INET6;
    into->info.ai_addrlen = sizeof into->address.six;
    return family != AF_INET && inet_pton(AF_INET6, host, &into->address.six.sin6_addr) == 1;
}

int getaddrinfo(const char *host, const char *service, const struct addrinfo *hints, struct addrinfo **into)
{
    int family = hints != 0 ? hints->ai_family : AF_UNSPEC, port = port_of(service);
    struct known *made;
    if (host == 0 && service == 0)
        return EAI_NONAME;
    if (port < 0)
        return EAI_SERVICE;
    made = calloc(1, sizeof *made);
    if (made == 0)
        return EAI_MEMORY;
    if (!read_host(made, host, family, hints != 0 && (hints->ai_flags & AI_PASSIVE) != 0)) {
        free(made);
        return EAI_NONAME;
    }
    made->address.four.sin_port = htons((uint16_t)port);
    made->info.ai_family = made->address.four.sin_family;
    made->info.ai_socktype = hints != 0 && hints->ai_socktype != 0 ? hints->ai_socktype : SOCK_STREAM;
    made->info.ai_protocol = hints != 0 ? hints->ai_protocol : 0;
    made->info.ai_addr = (struct sockaddr *)&made->address;
    *into = &made->info;
    return 0;
}

void freeaddrinfo(struct addrinfo *list)
{
    free(list);
}

int getnameinfo(const struct sockaddr *address, socklen_t bytes, char *host, socklen_t host_bytes, char *service,
    socklen_t service_bytes, int flags)
{
    const struct sockaddr_in *four = (const struct sockaddr_in *)address;
    const struct sockaddr_in6 *six = (const struct sockaddr_in6 *)address;
    const void *place = address->sa_family == AF_INET ? (const void *)&four->sin_addr : (const void *)&six->sin6_addr;
    if (flags & NI_NAMEREQD)
        return EAI_NONAME;
    if (host != 0 && host_bytes > 0 && inet_ntop(address->sa_family, place, host, host_bytes) == 0)
        return errno == ENOSPC ? EAI_OVERFLOW : EAI_FAMILY;
    if (service != 0 && service_bytes > 0 && snprintf(service, service_bytes, "%d", ntohs(four->sin_port)) >= (int)service_bytes)
        return EAI_OVERFLOW;
    return 0;
}

const char *gai_strerror(int error)
{
    switch (error) {
    case 0:
        return "Success";
    case EAI_NONAME:
    case EAI_NODATA:
        return "Name or service not known";
    case EAI_SERVICE:
        return "Servname not supported for ai_socktype";
    case EAI_FAMILY:
        return "ai_family not supported";
    case EAI_MEMORY:
        return "Memory allocation failure";
    case EAI_OVERFLOW:
        return "Result too large for supplied buffer";
    case EAI_AGAIN:
        return "Temporary failure in name resolution";
    default:
        return "Unknown error";
    }
}

const char *hstrerror(int error)
{
    return error == 0 ? "Resolver Error 0 (no error)" : error == HOST_NOT_FOUND ? "Unknown host" : "Unknown resolver error";
}

void herror(const char *text)
{
    fprintf(stderr, "%s%s%s\n", text != 0 ? text : "", text != 0 && *text != 0 ? ": " : "", hstrerror(h_errno));
}

struct hostent *gethostbyname2(const char *name, int family)
{
    static struct hostent found;
    static struct in_addr address;
    static char *none[1], *addresses[2];
    if (family != AF_INET || inet_pton(AF_INET, name, &address) != 1)
        return no_host();
    addresses[0] = (char *)&address;
    found = (struct hostent){ (char *)name, none, AF_INET, sizeof address, addresses };
    return &found;
}

struct hostent *gethostbyname(const char *name)
{
    return gethostbyname2(name, AF_INET);
}

struct hostent *gethostbyaddr(const void *address, socklen_t bytes, int family)
{
    return no_host();
}

struct hostent *gethostent(void)
{
    return no_host();
}

void sethostent(int stays)
{
}

void endhostent(void)
{
}

struct servent *getservbyname(const char *name, const char *protocol)
{
    return 0;
}

struct servent *getservbyport(int port, const char *protocol)
{
    return 0;
}

struct servent *getservent(void)
{
    return 0;
}

void setservent(int stays)
{
}

void endservent(void)
{
}

struct protoent *getprotobyname(const char *name)
{
    return 0;
}

struct protoent *getprotobynumber(int number)
{
    return 0;
}

struct protoent *getprotoent(void)
{
    return 0;
}

void setprotoent(int stays)
{
}

void endprotoent(void)
{
}

/* ---- interfaces, and commands of other machines */

unsigned if_nametoindex(const char *name)
{
    errno = ENODEV;
    return 0;
}

char *if_indextoname(unsigned number, char *into)
{
    errno = ENXIO;
    return 0;
}

struct if_nameindex *if_nameindex(void)
{
    return calloc(1, sizeof(struct if_nameindex));
}

void if_freenameindex(struct if_nameindex *list)
{
    free(list);
}

int rresvport(int *port)
{
    return fails(EAFNOSUPPORT);
}

int ruserok(const char *host, int is_root, const char *remote, const char *local)
{
    return -1;
}

int iruserok(unsigned long address, int is_root, const char *remote, const char *local)
{
    return -1;
}
