/* picolibc's sys/stat.h, and what it shows some systems alone. */
#ifndef BSP_LIBC_SYS_STAT_H
#define BSP_LIBC_SYS_STAT_H

#pragma GCC system_header

#include_next <sys/stat.h>

#ifdef __cplusplus
extern "C" {
#endif

int lstat(const char *__restrict name, struct stat *__restrict to);

#ifdef __cplusplus
}
#endif

#endif
