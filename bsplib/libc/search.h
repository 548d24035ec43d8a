/* picolibc's search.h, and what it lacks. */
#ifndef BSP_LIBC_SEARCH_H
#define BSP_LIBC_SEARCH_H

#pragma GCC system_header

#include_next <search.h>
#include <stddef.h>

#ifdef __cplusplus
extern "C" {
#endif

void *lfind(const void *key, const void *items, size_t *count, size_t size, int (*compare)(const void *, const void *));
void *lsearch(const void *key, void *items, size_t *count, size_t size, int (*compare)(const void *, const void *));
void insque(void *item, void *before);
void remque(void *item);

#ifdef __cplusplus
}
#endif

#endif
