/* Messages for a system, which go to standard error. */
#ifndef BSP_LIBC_SYSLOG_H
#define BSP_LIBC_SYSLOG_H

#pragma GCC system_header

#include <stdarg.h>

#ifdef __cplusplus
extern "C" {
#endif

enum { LOG_EMERG, LOG_ALERT, LOG_CRIT, LOG_ERR, LOG_WARNING, LOG_NOTICE, LOG_INFO, LOG_DEBUG };
enum { LOG_PID = 1, LOG_CONS = 2, LOG_NDELAY = 8, LOG_PERROR = 32, LOG_USER = 1 << 3, LOG_DAEMON = 3 << 3, LOG_LOCAL0 = 16 << 3 };
void openlog(const char *name, int options, int facility);
void syslog(int priority, const char *format, ...) __attribute__((format(printf, 2, 3)));
void vsyslog(int priority, const char *format, va_list arguments);
void closelog(void);

#ifdef __cplusplus
}
#endif

#endif
