/* picolibc's stdio.h, and what it lacks. */
#ifndef BSP_LIBC_STDIO_H
#define BSP_LIBC_STDIO_H

#pragma GCC system_header

#include_next <stdio.h>
#include <sys/types.h>

#ifdef __cplusplus
extern "C" {
#endif

ssize_t getline(char **__restrict line, size_t *__restrict size, FILE *__restrict file);
ssize_t getdelim(char **__restrict line, size_t *__restrict size, int last, FILE *__restrict file);
int dprintf(int file, const char *__restrict format, ...) __attribute__((format(printf, 2, 3)));
int vdprintf(int file, const char *__restrict format, va_list arguments) __attribute__((format(printf, 2, 0)));

/* picolibc declares some of these in other headers, or by macros alone. */
FILE *tmpfile(void);
int remove(const char *);
int rename(const char *, const char *);
int fileno(FILE *);
FILE *fdopen(int, const char *);
/* Answers NULL with ENOSYS: a node has no other programs to run. */
FILE *popen(const char *, const char *);
int pclose(FILE *);
#ifndef FILENAME_MAX
#define FILENAME_MAX 1024
#endif

#ifdef __cplusplus
}
#endif

#endif
