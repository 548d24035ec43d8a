/* Contexts, which nodes do not have: ENOSYS. setjmp and longjmp are there. */
#ifndef BSP_LIBC_UCONTEXT_H
#define BSP_LIBC_UCONTEXT_H

#pragma GCC system_header

#include <stddef.h>

#ifdef __cplusplus
extern "C" {
#endif

typedef struct {
    void *ss_sp;
    int ss_flags;
    size_t ss_size;
} bsp_stack_t;
typedef struct ucontext {
    struct ucontext *uc_link;
    bsp_stack_t uc_stack;
} ucontext_t;
int getcontext(ucontext_t *to);
int setcontext(const ucontext_t *from);
void makecontext(ucontext_t *it, void (*function)(void), int count, ...);
int swapcontext(ucontext_t *to, const ucontext_t *from);

#ifdef __cplusplus
}
#endif

#endif
