/* picolibc's sys/resource.h, with what follows the machine's clock. */
#ifndef BSP_LIBC_SYS_RESOURCE_H
#define BSP_LIBC_SYS_RESOURCE_H

#pragma GCC system_header

#include <sys/time.h>

/* picolibc's is of C alone. */
#ifdef __cplusplus
extern "C" {
#endif

#include_next <sys/resource.h>

int getrusage(int, struct rusage *);

/* Limits, of which none is set. */
typedef unsigned long rlim_t;
struct rlimit {
    rlim_t rlim_cur, rlim_max;
};
#define RLIM_INFINITY (~(rlim_t)0)
enum { RLIMIT_CPU, RLIMIT_FSIZE, RLIMIT_DATA, RLIMIT_STACK, RLIMIT_CORE, RLIMIT_NOFILE = 7, RLIMIT_AS = 9 };
enum { PRIO_PROCESS, PRIO_PGRP, PRIO_USER };
int getrlimit(int which, struct rlimit *to);
int setrlimit(int which, const struct rlimit *limit);
int getpriority(int which, id_t who);
int setpriority(int which, id_t who, int priority);

#ifdef __cplusplus
}
#endif

#endif
