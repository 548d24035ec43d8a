/* Times of files, which have none: they are left as they are. */
#ifndef BSP_LIBC_UTIME_H
#define BSP_LIBC_UTIME_H

#pragma GCC system_header

#include <sys/types.h>

#ifdef __cplusplus
extern "C" {
#endif

struct utimbuf {
    time_t actime, modtime;
};
int utime(const char *name, const struct utimbuf *times);

#ifdef __cplusplus
}
#endif

#endif
