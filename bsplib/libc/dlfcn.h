/* Libraries that are loaded while a program runs, which nodes do not have: dlopen answers NULL, and dlerror says so. */
#ifndef BSP_LIBC_DLFCN_H
#define BSP_LIBC_DLFCN_H

#pragma GCC system_header

#ifdef __cplusplus
extern "C" {
#endif

enum { RTLD_LAZY = 1, RTLD_NOW = 2, RTLD_GLOBAL = 256, RTLD_LOCAL = 0 };
#define RTLD_DEFAULT ((void *)0)
#define RTLD_NEXT ((void *)-1)
void *dlopen(const char *name, int how);
void *dlsym(void *library, const char *name);
int dlclose(void *library);
char *dlerror(void);

#ifdef __cplusplus
}
#endif

#endif
