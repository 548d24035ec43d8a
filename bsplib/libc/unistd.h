/* picolibc's unistd.h, and what it lacks. */
#ifndef BSP_LIBC_UNISTD_H
#define BSP_LIBC_UNISTD_H

#pragma GCC system_header

#include_next <unistd.h>

#ifdef __cplusplus
extern "C" {
#endif

/* POSIX has it; whether picolibc shows it is a matter of feature macros. */
int gethostname(char *name, size_t size);

int ftruncate(int number, off_t size);
uid_t getuid(void);

int fchown(int number, uid_t owner, gid_t group);

/* These answer -1 with ENOSYS: a file has one name, a node starts no processes and runs no other programs, and has no signals of a clock. */
int link(const char *, const char *);
int symlink(const char *, const char *);
pid_t fork(void);
int pipe(int[2]);
int execv(const char *, char *const[]);
int execvp(const char *, char *const[]);
unsigned alarm(unsigned);

#ifdef __cplusplus
}
#endif

#endif
