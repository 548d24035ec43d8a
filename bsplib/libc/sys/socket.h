/* Sockets, which nodes do not have: all answers are ENOSYS. */
#ifndef BSP_LIBC_SYS_SOCKET_H
#define BSP_LIBC_SYS_SOCKET_H

#pragma GCC system_header

#include <sys/types.h>
#include <sys/uio.h>

#ifdef __cplusplus
extern "C" {
#endif

typedef unsigned socklen_t;
typedef unsigned short sa_family_t;
struct sockaddr {
    sa_family_t sa_family;
    char sa_data[14];
};
struct sockaddr_storage {
    sa_family_t ss_family;
    char ss_data[126];
};
enum { AF_UNSPEC, AF_UNIX, AF_INET, AF_INET6 = 10, PF_UNIX = AF_UNIX, PF_INET = AF_INET };
enum { SOCK_STREAM = 1, SOCK_DGRAM };
enum { SOL_SOCKET = 1, SO_REUSEADDR = 2, SO_ERROR = 4, SO_KEEPALIVE = 9, SOMAXCONN = 128 };
enum { SHUT_RD, SHUT_WR, SHUT_RDWR };
int socket(int family, int kind, int protocol);
int bind(int socket, const struct sockaddr *address, socklen_t size);
int listen(int socket, int waiting);
int accept(int socket, struct sockaddr *address, socklen_t *size);
int connect(int socket, const struct sockaddr *address, socklen_t size);
int shutdown(int socket, int how);
int setsockopt(int socket, int level, int name, const void *value, socklen_t size);
int getsockopt(int socket, int level, int name, void *value, socklen_t *size);
int getsockname(int socket, struct sockaddr *address, socklen_t *size);
ssize_t send(int socket, const void *bytes, size_t count, int flags);
ssize_t recv(int socket, void *bytes, size_t count, int flags);
ssize_t sendto(int socket, const void *bytes, size_t count, int flags, const struct sockaddr *address, socklen_t size);
ssize_t recvfrom(int socket, void *bytes, size_t count, int flags, struct sockaddr *address, socklen_t *size);

#ifdef __cplusplus
}
#endif

#endif
