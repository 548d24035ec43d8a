/* Reads and writes of several pieces. */
#ifndef BSP_LIBC_SYS_UIO_H
#define BSP_LIBC_SYS_UIO_H

#pragma GCC system_header

#include <sys/types.h>

#ifdef __cplusplus
extern "C" {
#endif

struct iovec {
    void *iov_base;
    size_t iov_len;
};
ssize_t readv(int file, const struct iovec *pieces, int count);
ssize_t writev(int file, const struct iovec *pieces, int count);

#ifdef __cplusplus
}
#endif

#endif
