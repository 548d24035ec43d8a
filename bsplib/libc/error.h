/* Messages of errors as GNU's library has them. */
#ifndef BSP_LIBC_ERROR_H
#define BSP_LIBC_ERROR_H

#pragma GCC system_header

#ifdef __cplusplus
extern "C" {
#endif

extern unsigned error_message_count;
void error(int status, int number, const char *format, ...) __attribute__((format(printf, 3, 4)));
void error_at_line(int status, int number, const char *file, unsigned line, const char *format, ...) __attribute__((format(printf, 5, 6)));

#ifdef __cplusplus
}
#endif

#endif
