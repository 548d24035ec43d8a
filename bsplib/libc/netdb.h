/* Names of hosts, which nodes do not know. */
#ifndef BSP_LIBC_NETDB_H
#define BSP_LIBC_NETDB_H

#pragma GCC system_header

#include <netinet/in.h>

#ifdef __cplusplus
extern "C" {
#endif

struct hostent {
    char *h_name, **h_aliases;
    int h_addrtype, h_length;
    char **h_addr_list;
};
#define h_addr h_addr_list[0]
struct addrinfo {
    int ai_flags, ai_family, ai_socktype, ai_protocol;
    socklen_t ai_addrlen;
    struct sockaddr *ai_addr;
    char *ai_canonname;
    struct addrinfo *ai_next;
};
enum { EAI_FAIL = -4, AI_PASSIVE = 1, NI_MAXHOST = 1025, NI_MAXSERV = 32 };
struct hostent *gethostbyname(const char *name);
int getaddrinfo(const char *name, const char *service, const struct addrinfo *wanted, struct addrinfo **found);
void freeaddrinfo(struct addrinfo *found);
const char *gai_strerror(int error);

#ifdef __cplusplus
}
#endif

#endif
