/* The small library's part of stdlib.h. */
#ifndef SMALL_STDLIB_H
#define SMALL_STDLIB_H

#include <stddef.h>

#define EXIT_SUCCESS 0
#define EXIT_FAILURE 1

void *malloc(size_t size);
void *calloc(size_t count, size_t size);
void free(void *place);
void qsort(void *base, size_t count, size_t size, int (*compare)(const void *, const void *));
int atoi(const char *text);
int abs(int number);
long labs(long number);
__attribute__((noreturn)) void exit(int status);
__attribute__((noreturn)) void abort(void);

#endif
