/* picolibc's time.h, with what follows the machine's clock. */
#ifndef BSP_LIBC_TIME_H
#define BSP_LIBC_TIME_H

#pragma GCC system_header

#include_next <time.h>
#include <sys/timespec.h>
#include <sys/types.h>

#ifndef CLOCK_REALTIME
#define CLOCK_REALTIME ((clockid_t)1)
#endif
#ifndef CLOCK_MONOTONIC
#define CLOCK_MONOTONIC ((clockid_t)4)
#endif
#ifndef CLOCK_PROCESS_CPUTIME_ID
#define CLOCK_PROCESS_CPUTIME_ID ((clockid_t)2)
#endif

#ifdef __cplusplus
extern "C" {
#endif

clock_t clock(void);

/* A node has no time to wait for: it goes on at once. */
int nanosleep(const struct timespec *, struct timespec *);

int clock_gettime(clockid_t, struct timespec *);
int clock_getres(clockid_t, struct timespec *);

#ifdef __cplusplus
}
#endif

#endif
