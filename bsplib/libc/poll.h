/* Waiting for files, which are always there: poll answers ENOSYS. */
#ifndef BSP_LIBC_POLL_H
#define BSP_LIBC_POLL_H

#pragma GCC system_header

#ifdef __cplusplus
extern "C" {
#endif

typedef unsigned nfds_t;
struct pollfd {
    int fd;
    short events, revents;
};
enum { POLLIN = 1, POLLPRI = 2, POLLOUT = 4, POLLERR = 8, POLLHUP = 16, POLLNVAL = 32 };
int poll(struct pollfd *files, nfds_t count, int milliseconds);

#ifdef __cplusplus
}
#endif

#endif
