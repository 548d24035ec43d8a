/* picolibc's stdlib.h without names that no standard has, and what it lacks. */
#ifndef BSP_LIBC_STDLIB_H
#define BSP_LIBC_STDLIB_H

#pragma GCC system_header

#define itoa bsp_no_itoa
#define utoa bsp_no_utoa
#include_next <stdlib.h>
#undef itoa
#undef utoa

#ifdef __cplusplus
extern "C" {
#endif

/* 0 for NULL, since there is no shell; else it stops the node. */
int system(const char *);

#ifdef __cplusplus
}
#endif

#endif
