/* picolibc's sys/time.h, with what follows the machine's clock. */
#ifndef BSP_LIBC_SYS_TIME_H
#define BSP_LIBC_SYS_TIME_H

#pragma GCC system_header

#include_next <sys/time.h>

#ifdef __cplusplus
extern "C" {
#endif

int gettimeofday(struct timeval *__restrict, void *__restrict);

#ifdef __cplusplus
}
#endif

#endif
