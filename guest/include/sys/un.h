/* The address of a socket with a name. */
#ifndef NESTED_SYS_UN_H
#define NESTED_SYS_UN_H

#include <sys/socket.h>

struct sockaddr_un {
    sa_family_t sun_family;
    char sun_path[108];
};

#endif
