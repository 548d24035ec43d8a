/* Mapped memory, which is of the heap. */
#ifndef BSP_LIBC_SYS_MMAN_H
#define BSP_LIBC_SYS_MMAN_H

#pragma GCC system_header

#include <sys/types.h>

#ifdef __cplusplus
extern "C" {
#endif

enum { PROT_NONE = 0, PROT_READ = 1, PROT_WRITE = 2, PROT_EXEC = 4, MAP_SHARED = 1, MAP_PRIVATE = 2, MAP_FIXED = 16, MAP_ANONYMOUS = 32, MAP_ANON = 32 };
enum { MS_ASYNC = 1, MS_SYNC = 4, MADV_NORMAL = 0, MADV_RANDOM, MADV_SEQUENTIAL, MADV_WILLNEED, MADV_DONTNEED };
#define MAP_FAILED ((void *)-1)

/* Memory of the heap, with what the file has: a file that is written through its pages is refused with ENODEV. */
void *mmap(void *where, size_t size, int protection, int flags, int file, off_t from);
int munmap(void *where, size_t size);
int mprotect(void *where, size_t size, int protection);
int msync(void *where, size_t size, int flags);
int madvise(void *where, size_t size, int advice);
int mlock(const void *where, size_t size);
int munlock(const void *where, size_t size);

#ifdef __cplusplus
}
#endif

#endif
