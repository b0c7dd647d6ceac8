/* Sockets: a guest has none, so each function fails, socket with EAFNOSUPPORT. */
#ifndef NESTED_SYS_SOCKET_H
#define NESTED_SYS_SOCKET_H

#include <sys/types.h>
#include <sys/uio.h>

#ifdef __cplusplus
extern "C" {
#endif

#ifndef _SOCKLEN_T_DECLARED
#define _SOCKLEN_T_DECLARED
typedef __socklen_t socklen_t;
#endif
typedef unsigned short sa_family_t;

struct sockaddr {
    sa_family_t sa_family;
    char sa_data[14];
};

struct sockaddr_storage {
    sa_family_t ss_family;
    char __padding[6];
    long long __aligned[15];
};

struct msghdr {
    void *msg_name;
    socklen_t msg_namelen;
    struct iovec *msg_iov;
    int msg_iovlen;
    void *msg_control;
    socklen_t msg_controllen;
    int msg_flags;
};

struct cmsghdr {
    socklen_t cmsg_len;
    int cmsg_level;
    int cmsg_type;
};

#define __CMSG_ALIGN(bytes) (((bytes) + sizeof(socklen_t) - 1) & ~(sizeof(socklen_t) - 1))
#define CMSG_DATA(message) ((unsigned char *)((message) + 1))
#define CMSG_SPACE(bytes) (__CMSG_ALIGN(sizeof(struct cmsghdr)) + __CMSG_ALIGN(bytes))
#define CMSG_LEN(bytes) (__CMSG_ALIGN(sizeof(struct cmsghdr)) + (bytes))
#define CMSG_FIRSTHDR(header) \
    ((header)->msg_controllen >= sizeof(struct cmsghdr) ? (struct cmsghdr *)(header)->msg_control : (struct cmsghdr *)0)
#define CMSG_NXTHDR(header, message) ((struct cmsghdr *)0)

struct linger {
    int l_onoff;
    int l_linger;
};

#define AF_UNSPEC 0
#define AF_UNIX 1
#define AF_LOCAL 1
#define AF_INET 2
#define AF_INET6 10
#define PF_UNSPEC AF_UNSPEC
#define PF_UNIX AF_UNIX
#define PF_LOCAL AF_LOCAL
#define PF_INET AF_INET
#define PF_INET6 AF_INET6

#define SOCK_STREAM 1
#define SOCK_DGRAM 2
#define SOCK_RAW 3
#define SOCK_RDM 4
#define SOCK_SEQPACKET 5
#define SOCK_NONBLOCK 0x4000
#define SOCK_CLOEXEC 0x40000

#define SOL_SOCKET 1
#define SO_DEBUG 1
#define SO_REUSEADDR 2
#define SO_TYPE 3
#define SO_ERROR 4
#define SO_DONTROUTE 5
#define SO_BROADCAST 6
#define SO_SNDBUF 7
#define SO_RCVBUF 8
#define SO_KEEPALIVE 9
#define SO_OOBINLINE 10
#define SO_LINGER 13
#define SO_REUSEPORT 15
#define SO_RCVLOWAT 18
#define SO_SNDLOWAT 19
#define SO_RCVTIMEO 20
#define SO_SNDTIMEO 21
#define SO_ACCEPTCONN 30
#define SOMAXCONN 128
#define SCM_RIGHTS 1

#define MSG_OOB 1
#define MSG_PEEK 2
#define MSG_DONTROUTE 4
#define MSG_CTRUNC 8
#define MSG_TRUNC 0x20
#define MSG_DONTWAIT 0x40
#define MSG_EOR 0x80
#define MSG_WAITALL 0x100
#define MSG_NOSIGNAL 0x4000

#define SHUT_RD 0
#define SHUT_WR 1
#define SHUT_RDWR 2

int socket(int family, int type, int protocol);
int socketpair(int family, int type, int protocol, int into[2]);
int bind(int fd, const struct sockaddr *address, socklen_t bytes);
int connect(int fd, const struct sockaddr *address, socklen_t bytes);
int listen(int fd, int waiting);
int accept(int fd, struct sockaddr *into, socklen_t *bytes);
int accept4(int fd, struct sockaddr *into, socklen_t *bytes, int flags);
int getsockname(int fd, struct sockaddr *into, socklen_t *bytes);
int getpeername(int fd, struct sockaddr *into, socklen_t *bytes);
int getsockopt(int fd, int level, int option, void *into, socklen_t *bytes);
int setsockopt(int fd, int level, int option, const void *from, socklen_t bytes);
int shutdown(int fd, int how);
int sockatmark(int fd);
ssize_t recv(int fd, void *into, size_t bytes, int flags);
ssize_t recvfrom(int fd, void *into, size_t bytes, int flags, struct sockaddr *address, socklen_t *address_bytes);
ssize_t recvmsg(int fd, struct msghdr *into, int flags);
ssize_t send(int fd, const void *from, size_t bytes, int flags);
ssize_t sendto(int fd, const void *from, size_t bytes, int flags, const struct sockaddr *address, socklen_t address_bytes);
ssize_t sendmsg(int fd, const struct msghdr *from, int flags);

#ifdef __cplusplus
}
#endif

#endif
