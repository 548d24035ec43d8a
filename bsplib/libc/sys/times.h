/* picolibc's sys/times.h, with what follows the machine's clock. */
#ifndef BSP_LIBC_SYS_TIMES_H
#define BSP_LIBC_SYS_TIMES_H

#pragma GCC system_header

#include_next <sys/times.h>

#ifdef __cplusplus
extern "C" {
#endif

clock_t times(struct tms *);

#ifdef __cplusplus
}
#endif

#endif
