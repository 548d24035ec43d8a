/* picolibc's setjmp.h, with the names of POSIX: there are no signals whose mask would be saved. */
#ifndef BSP_LIBC_SETJMP_H
#define BSP_LIBC_SETJMP_H

#pragma GCC system_header

#include_next <setjmp.h>

typedef jmp_buf sigjmp_buf;
#define sigsetjmp(buffer, saves) setjmp(buffer)
#define siglongjmp(buffer, value) longjmp(buffer, value)
#define _setjmp(buffer) setjmp(buffer)
#define _longjmp(buffer, value) longjmp(buffer, value)

#endif
