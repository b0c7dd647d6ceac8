/* Addresses of the Internet as texts. */
#ifndef NESTED_ARPA_INET_H
#define NESTED_ARPA_INET_H

#include <netinet/in.h>

#ifdef __cplusplus
extern "C" {
#endif

in_addr_t inet_addr(const char *text);
int inet_aton(const char *text, struct in_addr *into);
char *inet_ntoa(struct in_addr address);
const char *inet_ntop(int family, const void *address, char *into, socklen_t bytes);
int inet_pton(int family, const char *text, void *into);

#ifdef __cplusplus
}
#endif

#endif
