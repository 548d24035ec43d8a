/* Semaphores of POSIX, which want a second thread. */
#ifndef BSP_LIBC_SEMAPHORE_H
#define BSP_LIBC_SEMAPHORE_H

#pragma GCC system_header

#ifdef __cplusplus
extern "C" {
#endif

typedef int sem_t;

#define BSP_NO_SEMAPHORE __attribute__((error("a node has one thread: ranks wait for one another in bsp_sync")))
BSP_NO_SEMAPHORE int sem_init(sem_t *, int, unsigned);
BSP_NO_SEMAPHORE int sem_destroy(sem_t *);
BSP_NO_SEMAPHORE int sem_post(sem_t *);
BSP_NO_SEMAPHORE int sem_wait(sem_t *);
BSP_NO_SEMAPHORE int sem_trywait(sem_t *);

#ifdef __cplusplus
}
#endif

#endif
