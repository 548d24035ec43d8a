/* Addresses of the Internet, as structures alone: nodes have no sockets. */
#ifndef BSP_LIBC_NETINET_IN_H
#define BSP_LIBC_NETINET_IN_H

#pragma GCC system_header

#include <stdint.h>
#include <sys/socket.h>

#ifdef __cplusplus
extern "C" {
#endif

typedef uint16_t in_port_t;
typedef uint32_t in_addr_t;
struct in_addr {
    in_addr_t s_addr;
};
struct sockaddr_in {
    sa_family_t sin_family;
    in_port_t sin_port;
    struct in_addr sin_addr;
    char sin_zero[8];
};
#define INADDR_ANY ((in_addr_t)0)
#define INADDR_LOOPBACK ((in_addr_t)0x7f000001)
#define INADDR_NONE ((in_addr_t)-1)
#define INET_ADDRSTRLEN 16
enum { IPPROTO_IP = 0, IPPROTO_TCP = 6, IPPROTO_UDP = 17 };
static inline uint16_t htons(uint16_t number) { return __builtin_bswap16(number); }
static inline uint16_t ntohs(uint16_t number) { return __builtin_bswap16(number); }
static inline uint32_t htonl(uint32_t number) { return __builtin_bswap32(number); }
static inline uint32_t ntohl(uint32_t number) { return __builtin_bswap32(number); }

#ifdef __cplusplus
}
#endif

#endif
