/* The functions that called this one, which nobody knows here: bsprun names them where a run stops. */
#ifndef BSP_LIBC_EXECINFO_H
#define BSP_LIBC_EXECINFO_H

#pragma GCC system_header

#ifdef __cplusplus
extern "C" {
#endif

int backtrace(void **to, int most);
char **backtrace_symbols(void *const *from, int count);
void backtrace_symbols_fd(void *const *from, int count, int file);

#ifdef __cplusplus
}
#endif

#endif
