/* The small library's part of stdio.h: formats without floating point, two outputs and one input. */
#ifndef SMALL_STDIO_H
#define SMALL_STDIO_H

#include <stdarg.h>
#include <stddef.h>

#define EOF (-1)

typedef struct bsp_stream FILE;
extern FILE *const stdin, *const stdout, *const stderr;

/* Flags - + 0 space #, width, precision of strings and of whole numbers, lengths hh h l ll z t j; d i u x X o c s p %.
   Any other conversion stops the node with a line that says so. */
__attribute__((format(printf, 1, 2))) int printf(const char *format, ...);
__attribute__((format(printf, 2, 3))) int fprintf(FILE *file, const char *format, ...);
__attribute__((format(printf, 3, 4))) int snprintf(char *to, size_t size, const char *format, ...);
int vprintf(const char *format, va_list arguments);
int vfprintf(FILE *file, const char *format, va_list arguments);
int vsnprintf(char *to, size_t size, const char *format, va_list arguments);
int puts(const char *text);
int fputs(const char *text, FILE *file);
int putchar(int byte);
int fflush(FILE *file);

/* Width, *, lengths hh h l ll z t j; d i u x c s %, from the input; a number of i or x may begin with 0x. */
__attribute__((format(scanf, 1, 2))) int scanf(const char *format, ...);
int getchar(void);
char *fgets(char *to, int size, FILE *file);

#endif
