/* picolibc's errno.h, with the program's name as the GNU library has it. */
#ifndef BSP_LIBC_ERRNO_H
#define BSP_LIBC_ERRNO_H

#pragma GCC system_header

#include_next <errno.h>

#ifdef _GNU_SOURCE
#ifdef __cplusplus
extern "C" {
#endif

extern char *program_invocation_name, *program_invocation_short_name;

#ifdef __cplusplus
}
#endif
#endif

#endif
