/* Functions that real software calls and a node cannot offer: folders, terminals, sockets, processes. They answer that there is none, so
   that a program goes on as on a host that lacks it. All of it is weak, since a program may have functions of these names. */
#include <dirent.h>
#include <dlfcn.h>
#include <errno.h>
#include <error.h>
#include <execinfo.h>
#include <ftw.h>
#include <netdb.h>
#include <poll.h>
#include <stdarg.h>
#include <stdio.h>
#include <stdlib.h>
#include <string.h>
#include <sys/ioctl.h>
#include <sys/stat.h>
#include <sys/uio.h>
#include <syslog.h>
#include <termios.h>
#include <ucontext.h>
#include <unistd.h>
#include <utime.h>

#include "files.h"

#define WEAK __attribute__((weak))

/* A function that answers -1 with a reason, whatever it is given. */
#define ANSWER(type, name, parameters, reason) \
    _Pragma("GCC diagnostic push") _Pragma("GCC diagnostic ignored \"-Wunused-parameter\"") WEAK type name parameters \
    { \
        errno = reason; \
        return (type)-1; \
    } \
    _Pragma("GCC diagnostic pop")

/* The same, which answers NULL. */
#define NONE(type, name, parameters, reason) \
    _Pragma("GCC diagnostic push") _Pragma("GCC diagnostic ignored \"-Wunused-parameter\"") WEAK type name parameters \
    { \
        errno = reason; \
        return NULL; \
    } \
    _Pragma("GCC diagnostic pop")

NONE(DIR *, opendir, (const char *name), ENOSYS)
NONE(struct dirent *, readdir, (DIR * folder), EBADF)
ANSWER(int, closedir, (DIR * folder), EBADF)
ANSWER(int, dirfd, (DIR * folder), ENOSYS)
ANSWER(int, scandir,
    (const char *name, struct dirent ***found, int (*wanted)(const struct dirent *), int (*order)(const struct dirent **, const struct dirent **)),
    ENOSYS)
ANSWER(int, ftw, (const char *name, int (*each)(const char *, const struct stat *, int), int most), ENOSYS)
ANSWER(int, nftw, (const char *name, int (*each)(const char *, const struct stat *, int, struct FTW *), int most, int flags), ENOSYS)

ANSWER(int, tcgetattr, (int file, struct termios *to), ENOTTY)
ANSWER(int, tcsetattr, (int file, int when, const struct termios *from), ENOTTY)
ANSWER(int, ioctl, (int file, unsigned long request, ...), ENOTTY)
ANSWER(int, poll, (struct pollfd * files, nfds_t count, int milliseconds), ENOSYS)

ANSWER(int, socket, (int family, int kind, int protocol), ENOSYS)
ANSWER(int, bind, (int socket, const struct sockaddr *address, socklen_t size), ENOSYS)
ANSWER(int, listen, (int socket, int waiting), ENOSYS)
ANSWER(int, accept, (int socket, struct sockaddr *address, socklen_t *size), ENOSYS)
ANSWER(int, connect, (int socket, const struct sockaddr *address, socklen_t size), ENOSYS)
ANSWER(int, shutdown, (int socket, int how), ENOSYS)
ANSWER(int, setsockopt, (int socket, int level, int name, const void *value, socklen_t size), ENOSYS)
ANSWER(int, getsockopt, (int socket, int level, int name, void *value, socklen_t *size), ENOSYS)
ANSWER(int, getsockname, (int socket, struct sockaddr *address, socklen_t *size), ENOSYS)
ANSWER(ssize_t, send, (int socket, const void *bytes, size_t count, int flags), ENOSYS)
ANSWER(ssize_t, recv, (int socket, void *bytes, size_t count, int flags), ENOSYS)
ANSWER(ssize_t, sendto, (int socket, const void *bytes, size_t count, int flags, const struct sockaddr *to, socklen_t size), ENOSYS)
ANSWER(ssize_t, recvfrom, (int socket, void *bytes, size_t count, int flags, struct sockaddr *from, socklen_t *size), ENOSYS)
NONE(struct hostent *, gethostbyname, (const char *name), ENOSYS)

ANSWER(int, link, (const char *old, const char *name), ENOSYS)
ANSWER(int, symlink, (const char *old, const char *name), ENOSYS)
ANSWER(pid_t, fork, (void), ENOSYS)
ANSWER(int, pipe, (int files[2]), ENOSYS)
ANSWER(int, execv, (const char *name, char *const words[]), ENOSYS)
ANSWER(int, execvp, (const char *name, char *const words[]), ENOSYS)
ANSWER(unsigned, alarm, (unsigned seconds), ENOSYS)
NONE(FILE *, popen, (const char *command, const char *mode), ENOSYS)
ANSWER(int, pclose, (FILE * file), ECHILD)

ANSWER(int, getcontext, (ucontext_t * to), ENOSYS)
ANSWER(int, setcontext, (const ucontext_t *from), ENOSYS)
ANSWER(int, swapcontext, (ucontext_t * to, const ucontext_t *from), ENOSYS)

WEAK void makecontext(ucontext_t *it, void (*function)(void), int count, ...)
{
    (void)it;
    (void)function;
    (void)count;
}

WEAK void rewinddir(DIR *folder)
{
    (void)folder;
}

WEAK int alphasort(const struct dirent **one, const struct dirent **other)
{
    return strcmp((*one)->d_name, (*other)->d_name);
}

/* A shell is asked for, of which there is none; another program cannot be run. */
WEAK int system(const char *command)
{
    static char line[200];
    if (command == NULL)
        return 0;
    snprintf(line, sizeof line, "system(\"%.100s\") is called, and a node has no other programs to run", command);
    bsp_stop(line);
}

WEAK int getaddrinfo(const char *name, const char *service, const struct addrinfo *wanted, struct addrinfo **found)
{
    (void)name;
    (void)service;
    (void)wanted;
    (void)found;
    return EAI_FAIL;
}

WEAK void freeaddrinfo(struct addrinfo *found)
{
    (void)found;
}

WEAK const char *gai_strerror(int number)
{
    (void)number;
    return "nodes know no hosts";
}

WEAK void *dlopen(const char *name, int how)
{
    (void)name;
    (void)how;
    return NULL;
}

WEAK void *dlsym(void *library, const char *name)
{
    (void)library;
    (void)name;
    return NULL;
}

WEAK int dlclose(void *library)
{
    (void)library;
    return -1;
}

WEAK char *dlerror(void)
{
    static char text[] = "nodes load no libraries while a program runs";
    return text;
}

WEAK int backtrace(void **to, int most)
{
    (void)to;
    (void)most;
    return 0;
}

WEAK char **backtrace_symbols(void *const *from, int count)
{
    (void)from;
    (void)count;
    return calloc(1, sizeof(char *));
}

WEAK void backtrace_symbols_fd(void *const *from, int count, int file)
{
    (void)from;
    (void)count;
    (void)file;
}

/* Files have neither rights nor owners nor times: what sets them is done at once, of a file that is there. */
static int is_there(int is_found, int reason)
{
    if (!is_found)
        errno = reason;
    return is_found ? 0 : -1;
}

WEAK int chmod(const char *name, mode_t mode)
{
    (void)mode;
    return is_there(bsp_file_named(name) != NULL, ENOENT);
}

WEAK int fchmod(int number, mode_t mode)
{
    (void)mode;
    return is_there(bsp_open_of(number) != NULL, EBADF);
}

WEAK int chown(const char *name, uid_t owner, gid_t group)
{
    (void)owner;
    (void)group;
    return chmod(name, 0);
}

WEAK int fchown(int number, uid_t owner, gid_t group)
{
    (void)owner;
    (void)group;
    return fchmod(number, 0);
}

WEAK int utime(const char *name, const struct utimbuf *times)
{
    (void)times;
    return chmod(name, 0);
}

WEAK mode_t umask(mode_t mode)
{
    static mode_t now = 022;
    mode_t before = now;
    now = mode;
    return before;
}

WEAK ssize_t readv(int file, const struct iovec *pieces, int count)
{
    ssize_t done = 0;
    for (int i = 0; i < count; i++) {
        ssize_t part = read(file, pieces[i].iov_base, pieces[i].iov_len);
        if (part < 0)
            return done > 0 ? done : part;
        done += part;
        if ((size_t)part < pieces[i].iov_len)
            break;
    }
    return done;
}

WEAK ssize_t writev(int file, const struct iovec *pieces, int count)
{
    ssize_t done = 0;
    for (int i = 0; i < count; i++) {
        ssize_t part = write(file, pieces[i].iov_base, pieces[i].iov_len);
        if (part < 0)
            return done > 0 ? done : part;
        done += part;
    }
    return done;
}

/* Messages for a system have the name that openlog was given. */
static const char *log_name = "program";

WEAK void openlog(const char *name, int options, int facility)
{
    (void)options;
    (void)facility;
    log_name = name != NULL ? name : "program";
}

WEAK void vsyslog(int priority, const char *format, va_list arguments)
{
    (void)priority;
    fprintf(stderr, "%s: ", log_name);
    vfprintf(stderr, format, arguments);
    putc('\n', stderr);
}

WEAK void syslog(int priority, const char *format, ...)
{
    va_list arguments;
    va_start(arguments, format);
    vsyslog(priority, format, arguments);
    va_end(arguments);
}

WEAK void closelog(void) {}

WEAK unsigned error_message_count = 0;

/* A line of an error: the program's name, the place where there is one, the text, and the name of the error. A status ends the program. */
static void tell_error(int status, int number, const char *place, const char *format, va_list arguments)
{
    fflush(stdout);
    error_message_count++;
    fprintf(stderr, "program: %s", place);
    vfprintf(stderr, format, arguments);
    if (number != 0)
        fprintf(stderr, ": %s", strerror(number));
    putc('\n', stderr);
    if (status != 0)
        exit(status);
}

WEAK void error(int status, int number, const char *format, ...)
{
    va_list arguments;
    va_start(arguments, format);
    tell_error(status, number, "", format, arguments);
    va_end(arguments);
}

WEAK void error_at_line(int status, int number, const char *file, unsigned line, const char *format, ...)
{
    char place[200];
    va_list arguments;
    snprintf(place, sizeof place, "%s:%u: ", file, line);
    va_start(arguments, format);
    tell_error(status, number, place, format, arguments);
    va_end(arguments);
}
