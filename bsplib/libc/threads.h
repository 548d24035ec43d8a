/* Threads of C, of which a node has one: locks are taken and given back, and what wants a second thread is refused when it is compiled. */
#ifndef BSP_LIBC_THREADS_H
#define BSP_LIBC_THREADS_H

#pragma GCC system_header

#include <time.h>

#ifndef __cplusplus
#define thread_local _Thread_local
#endif

#ifdef __cplusplus
extern "C" {
#endif

enum { mtx_plain = 1, mtx_recursive = 2, mtx_timed = 4 };
enum { thrd_success, thrd_busy, thrd_error, thrd_nomem, thrd_timedout };
typedef unsigned thrd_t, mtx_t, cnd_t, once_flag;
typedef int (*thrd_start_t)(void *);
#define ONCE_FLAG_INIT 0

static inline thrd_t thrd_current(void) { return 1; }
static inline int thrd_equal(thrd_t one, thrd_t other) { return one == other; }
static inline void thrd_yield(void) {}
static inline int mtx_init(mtx_t *lock, int kind) { return (void)kind, *lock = 0, thrd_success; }
static inline void mtx_destroy(mtx_t *lock) { (void)lock; }
static inline int mtx_lock(mtx_t *lock) { return (void)lock, thrd_success; }
static inline int mtx_trylock(mtx_t *lock) { return (void)lock, thrd_success; }
static inline int mtx_unlock(mtx_t *lock) { return (void)lock, thrd_success; }
static inline void call_once(once_flag *flag, void (*function)(void))
{
    if (*flag == 0) {
        *flag = 1;
        function();
    }
}

#define BSP_ONE_THREAD_OF_C \
    __attribute__((error("a node has one thread: give each rank its part, and share by bsp_put, bsp_get and bsp_send")))
BSP_ONE_THREAD_OF_C int thrd_create(thrd_t *, thrd_start_t, void *);
BSP_ONE_THREAD_OF_C int thrd_join(thrd_t, int *);
BSP_ONE_THREAD_OF_C int thrd_detach(thrd_t);
BSP_ONE_THREAD_OF_C void thrd_exit(int);
BSP_ONE_THREAD_OF_C int cnd_init(cnd_t *);
BSP_ONE_THREAD_OF_C int cnd_wait(cnd_t *, mtx_t *);
BSP_ONE_THREAD_OF_C int cnd_signal(cnd_t *);
BSP_ONE_THREAD_OF_C int cnd_broadcast(cnd_t *);

#ifdef __cplusplus
}
#endif

#endif
