/* Threads of POSIX, of which a node has one. A lock that nobody else can hold is taken and given back; what wants a second thread is
   refused when it is compiled. */
#ifndef BSP_LIBC_PTHREAD_H
#define BSP_LIBC_PTHREAD_H

#pragma GCC system_header

#include <sys/types.h>
#include <time.h>

#ifdef __cplusplus
extern "C" {
#endif

typedef unsigned pthread_t, pthread_attr_t, pthread_mutex_t, pthread_mutexattr_t, pthread_cond_t, pthread_condattr_t;
typedef unsigned pthread_barrier_t, pthread_barrierattr_t;
#define PTHREAD_MUTEX_INITIALIZER 0
#define PTHREAD_COND_INITIALIZER 0

static inline pthread_t pthread_self(void) { return 1; }
static inline int pthread_equal(pthread_t one, pthread_t other) { return one == other; }
static inline int pthread_mutex_init(pthread_mutex_t *lock, const pthread_mutexattr_t *how) { return (void)how, *lock = 0, 0; }
static inline int pthread_mutex_destroy(pthread_mutex_t *lock) { return (void)lock, 0; }
static inline int pthread_mutex_lock(pthread_mutex_t *lock) { return (void)lock, 0; }
static inline int pthread_mutex_trylock(pthread_mutex_t *lock) { return (void)lock, 0; }
static inline int pthread_mutex_unlock(pthread_mutex_t *lock) { return (void)lock, 0; }

#define BSP_ONE_THREAD __attribute__((error("a node has one thread: give each rank its part, and share by bsp_put, bsp_get and bsp_send")))
BSP_ONE_THREAD int pthread_create(pthread_t *, const pthread_attr_t *, void *(*)(void *), void *);
BSP_ONE_THREAD int pthread_join(pthread_t, void **);
BSP_ONE_THREAD int pthread_detach(pthread_t);
BSP_ONE_THREAD void pthread_exit(void *);
BSP_ONE_THREAD int pthread_cond_wait(pthread_cond_t *, pthread_mutex_t *);
BSP_ONE_THREAD int pthread_cond_signal(pthread_cond_t *);
BSP_ONE_THREAD int pthread_cond_broadcast(pthread_cond_t *);
BSP_ONE_THREAD int pthread_barrier_init(pthread_barrier_t *, const pthread_barrierattr_t *, unsigned);
BSP_ONE_THREAD int pthread_barrier_wait(pthread_barrier_t *);

#ifdef __cplusplus
}
#endif

#endif
