/* Functions of POSIX besides files that picolibc does not have. Names are fixed, a sleep is over at once, and
   times are 0, so that a run is the same each time and on every host. All of it is weak, since a program may have functions of these names.
   */
#include <err.h>
#include <errno.h>
#include <stdarg.h>
#include <stdio.h>
#include <stdlib.h>
#include <string.h>
#include <sys/resource.h>
#include <sys/stat.h>
#include <sys/times.h>
#include <sys/utsname.h>
#include <time.h>
#include <unistd.h>

#include "files.h"

#define WEAK __attribute__((weak))

static int refuse(int reason)
{
    errno = reason;
    return -1;
}

/* Writes a name where there is room for it. */
static char *give_name(char *to, size_t size, const char *name)
{
    if (size <= strlen(name)) {
        errno = ERANGE;
        return NULL;
    }
    return strcpy(to, name);
}

WEAK int gethostname(char *name, size_t size)
{
    return give_name(name, size, "node") == NULL ? -1 : 0;
}

WEAK char *getcwd(char *name, size_t size)
{
    if (name == NULL) {
        size = size > 0 ? size : 2;
        name = malloc(size);
    }
    return name == NULL ? NULL : give_name(name, size, "/");
}

WEAK int uname(struct utsname *names)
{
    static const struct utsname fixed = {"bspemu", "node", "1", "1", "riscv32"};
    *names = fixed;
    return 0;
}

WEAK uid_t getuid(void)
{
    return 0;
}

WEAK pid_t getppid(void)
{
    return 0;
}

WEAK long sysconf(int name)
{
    enum { PAGE = 4096, TICKS = 100 };
    switch (name) {
    case _SC_PAGESIZE:
        return PAGE;
    case _SC_PHYS_PAGES:
        return (long)(bsp_memory_size / PAGE);
    case _SC_CLK_TCK:
        return TICKS;
    case _SC_NPROCESSORS_CONF:
    case _SC_NPROCESSORS_ONLN:
        return 1;
    default:
        return refuse(EINVAL);
    }
}

/* Nothing goes on while a node sleeps. */
WEAK unsigned sleep(unsigned seconds)
{
    (void)seconds;
    return 0;
}

WEAK int usleep(useconds_t microseconds)
{
    (void)microseconds;
    return 0;
}

WEAK int nanosleep(const struct timespec *wanted, struct timespec *left)
{
    (void)wanted;
    if (left != NULL)
        memset(left, 0, sizeof *left);
    return 0;
}

WEAK int sched_yield(void)
{
    return 0;
}

WEAK clock_t times(struct tms *to)
{
    enum { TICKS = 100 };
    clock_t now = (clock_t)(bsp_clock() * TICKS);
    if (to != NULL) {
        memset(to, 0, sizeof *to);
        to->tms_utime = now;
    }
    return now;
}

WEAK int getrusage(int who, struct rusage *to)
{
    (void)who;
    double now = bsp_clock();
    memset(to, 0, sizeof *to);
    to->ru_utime.tv_sec = (time_t)now;
    to->ru_utime.tv_usec = (suseconds_t)((now - (double)to->ru_utime.tv_sec) * 1e6);
    return 0;
}

WEAK int clock_gettime(clockid_t clock, struct timespec *to)
{
    (void)clock;
    double now = bsp_clock();
    memset(to, 0, sizeof *to);
    to->tv_sec = (time_t)now;
    to->tv_nsec = (long)((now - (double)to->tv_sec) * 1e9);
    return 0;
}

/* A tick, and no less than a timespec has: 0 where there is no clock. */
WEAK int clock_getres(clockid_t clock, struct timespec *to)
{
    (void)clock;
    if (to != NULL) {
        memset(to, 0, sizeof *to);
        if (bsp_has_clock()) {
            double tick = bsp_tick();
            to->tv_sec = (time_t)tick;
            to->tv_nsec = tick < 1e-9 ? 1 : (long)((tick - (double)to->tv_sec) * 1e9);
        }
    }
    return 0;
}

WEAK double omp_get_wtime(void)
{
    return bsp_clock();
}

WEAK double omp_get_wtick(void)
{
    return bsp_has_clock() ? bsp_tick() : 0.0;
}

/* Files that bsprun gave, or that the program wrote, are there, and nothing else. */
WEAK int access(const char *name, int mode)
{
    if (bsp_file_named(name) == NULL)
        return refuse(ENOENT);
    if ((mode & X_OK) != 0 || ((mode & W_OK) != 0 && !(bsp_settings.flags & BSP_WRITES_FILES)))
        return refuse(EACCES);
    return 0;
}

static int describe(const struct bsp_file *file, struct stat *to)
{
    if (file == NULL)
        return refuse(ENOENT);
    memset(to, 0, sizeof *to);
    to->st_mode = (file->device == DEVICE_NONE ? S_IFREG : S_IFCHR) | S_IRUSR | S_IRGRP | S_IROTH;
    to->st_nlink = 1;
    to->st_size = (off_t)file->size;
    return 0;
}

WEAK int stat(const char *restrict name, struct stat *restrict to)
{
    return describe(bsp_file_named(name), to);
}

WEAK int fstat(int number, struct stat *to)
{
    const struct bsp_open *open = bsp_open_of(number);
    return open == NULL ? refuse(EBADF) : describe(open->file, to);
}

WEAK int lstat(const char *restrict name, struct stat *restrict to)
{
    return stat(name, to);
}

/* Formats into a file by its number: a stream that stands for it as long as that takes. */
struct numbered {
    FILE stream;
    int number;
    size_t count;
    char bytes[64];
};

static int flush_numbered(FILE *stream)
{
    struct numbered *to = (struct numbered *)stream;
    size_t count = to->count;
    to->count = 0;
    return count == 0 || write(to->number, to->bytes, count) == (ssize_t)count ? 0 : _FDEV_ERR;
}

static int put_numbered(char byte, FILE *stream)
{
    struct numbered *to = (struct numbered *)stream;
    to->bytes[to->count++] = byte;
    return to->count < sizeof to->bytes ? 0 : flush_numbered(stream);
}

WEAK int vdprintf(int file, const char *restrict format, va_list arguments)
{
    struct numbered to = {FDEV_SETUP_STREAM(put_numbered, NULL, flush_numbered, _FDEV_SETUP_WRITE), file, 0, {0}};
    int count;
    if (file == STDOUT_FILENO || file == STDERR_FILENO)
        return vfprintf(file == STDERR_FILENO ? stderr : stdout, format, arguments);
    count = vfprintf(&to.stream, format, arguments);
    return flush_numbered(&to.stream) < 0 ? EOF : count;
}

WEAK int dprintf(int file, const char *restrict format, ...)
{
    int count;
    va_list arguments;
    va_start(arguments, format);
    count = vdprintf(file, format, arguments);
    va_end(arguments);
    return count;
}

/* The functions that are called at a quick exit, the last one first. */
static void (*at_quick_exits[32])(void);
static int at_quick_exit_count = 0;

WEAK int at_quick_exit(void (*function)(void))
{
    if (at_quick_exit_count == (int)(sizeof at_quick_exits / sizeof *at_quick_exits))
        return -1;
    at_quick_exits[at_quick_exit_count++] = function;
    return 0;
}

WEAK void quick_exit(int status)
{
    while (at_quick_exit_count > 0)
        at_quick_exits[--at_quick_exit_count]();
    _exit(status);
}

/* A line of an error: the program's name, the text where there is one, and the name of the error where one is asked for. */
static void tell(const char *format, va_list arguments, const char *error)
{
    fprintf(stderr, "program: ");
    if (format != NULL)
        vfprintf(stderr, format, arguments);
    if (error != NULL)
        fprintf(stderr, format != NULL ? ": %s" : "%s", error);
    putc('\n', stderr);
}

WEAK void vwarn(const char *format, va_list arguments)
{
    tell(format, arguments, strerror(errno));
}

WEAK void vwarnx(const char *format, va_list arguments)
{
    tell(format, arguments, NULL);
}

WEAK void verr(int status, const char *format, va_list arguments)
{
    vwarn(format, arguments);
    exit(status);
}

WEAK void verrx(int status, const char *format, va_list arguments)
{
    vwarnx(format, arguments);
    exit(status);
}

WEAK void warn(const char *format, ...)
{
    va_list arguments;
    va_start(arguments, format);
    vwarn(format, arguments);
    va_end(arguments);
}

WEAK void warnx(const char *format, ...)
{
    va_list arguments;
    va_start(arguments, format);
    vwarnx(format, arguments);
    va_end(arguments);
}

WEAK void err(int status, const char *format, ...)
{
    va_list arguments;
    va_start(arguments, format);
    verr(status, format, arguments);
}

WEAK void errx(int status, const char *format, ...)
{
    va_list arguments;
    va_start(arguments, format);
    verrx(status, format, arguments);
}
