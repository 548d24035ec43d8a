/* Numbers in the order of a net, and addresses of four bytes as texts. */
#ifndef BSP_LIBC_ARPA_INET_H
#define BSP_LIBC_ARPA_INET_H

#pragma GCC system_header

#include <netinet/in.h>

#ifdef __cplusplus
extern "C" {
#endif

in_addr_t inet_addr(const char *text);
int inet_aton(const char *text, struct in_addr *to);
char *inet_ntoa(struct in_addr address);
int inet_pton(int family, const char *text, void *to);
const char *inet_ntop(int family, const void *address, char *to, socklen_t size);

#ifdef __cplusplus
}
#endif

#endif
