/* Functions of Unix that picolibc does not have. Names of users and of hosts are fixed, locks are there at once, and mapped memory is
   of the heap. All of it is weak, since a program may have functions of these names. */
#include <arpa/inet.h>
#include <errno.h>
#include <fcntl.h>
#include <grp.h>
#include <malloc.h>
#include <pwd.h>
#include <search.h>
#include <stdarg.h>
#include <stdint.h>
#include <stdio.h>
#include <stdlib.h>
#include <string.h>
#include <sys/mman.h>
#include <sys/resource.h>
#include <sys/select.h>
#include <sys/stat.h>
#include <sys/time.h>
#include <unistd.h>

#include "files.h"

#define WEAK __attribute__((weak))
#define UNUSED __attribute__((unused))

static int refuse(int reason)
{
    errno = reason;
    return -1;
}

/* A number of a file, or -1 with EBADF. */
static int is_open(int number)
{
    return bsp_open_of(number) != NULL || (number >= STDIN_FILENO && number <= STDERR_FILENO) ? 0 : refuse(EBADF);
}

static char program[] = "program";
WEAK char *program_invocation_name = program, *program_invocation_short_name = program;

/* Users and groups: one user, without a name. */
WEAK uid_t geteuid(void) { return 0; }
WEAK gid_t getgid(void) { return 0; }
WEAK gid_t getegid(void) { return 0; }
WEAK int setuid(UNUSED uid_t user) { return 0; }
WEAK int setgid(UNUSED gid_t group) { return 0; }
WEAK struct passwd *getpwuid(UNUSED uid_t user) { return NULL; }
WEAK struct passwd *getpwnam(UNUSED const char *name) { return NULL; }
WEAK struct group *getgrgid(UNUSED gid_t group) { return NULL; }
WEAK char *getlogin(void) { return NULL; }
WEAK char *ttyname(UNUSED int number) { return NULL; }
WEAK char *secure_getenv(const char *name) { return getenv(name); }
WEAK long gethostid(void) { return 0; }
WEAK int nice(UNUSED int more) { return 0; }
WEAK int getpriority(UNUSED int which, UNUSED id_t who) { return 0; }
WEAK int setpriority(UNUSED int which, UNUSED id_t who, UNUSED int priority) { return 0; }
WEAK int getdtablesize(void) { return 64; }

/* Limits that nobody has set. */
WEAK int getrlimit(UNUSED int which, struct rlimit *to)
{
    to->rlim_cur = to->rlim_max = RLIM_INFINITY;
    return 0;
}
WEAK int setrlimit(UNUSED int which, UNUSED const struct rlimit *limit) { return 0; }

/* Files. Their bytes are kept as long as the node runs; there are no folders to go to, and no links. */
WEAK int fsync(int number) { return is_open(number); }
WEAK int fdatasync(int number) { return is_open(number); }
WEAK void sync(void) {}
WEAK ssize_t readlink(const char *name, UNUSED char *to, UNUSED size_t size) { return refuse(bsp_file_named(name) != NULL ? EINVAL : ENOENT); }
WEAK int chdir(const char *name) { return strcmp(name, ".") == 0 || strcmp(name, "/") == 0 ? 0 : refuse(ENOSYS); }
WEAK int utimes(const char *name, UNUSED const struct timeval times[2]) { return bsp_file_named(name) != NULL ? 0 : refuse(ENOENT); }
WEAK int futimens(int number, UNUSED const struct timespec times[2]) { return is_open(number); }

WEAK int fcntl(int number, int request, ...)
{
    va_list more;
    int answer = 0;
    if (is_open(number) < 0)
        return -1;
    va_start(more, request);
    switch (request) {
    case F_GETFD:
    case F_SETFD:
    case F_SETFL:
    case F_SETLK:
    case F_SETLKW:
        break;
    case F_GETFL:
        answer = bsp_open_of(number) != NULL ? bsp_open_of(number)->flags : O_RDWR;
        break;
    case F_GETLK:
        va_arg(more, struct flock *)->l_type = F_UNLCK;
        break;
    default:
        answer = refuse(EINVAL);
    }
    va_end(more);
    return answer;
}

WEAK int truncate(const char *name, off_t size)
{
    int number = open(name, O_WRONLY);
    if (number < 0)
        return -1;
    int answer = ftruncate(number, size);
    close(number);
    return answer;
}

/* Reads or writes at a place, and leaves the file where it was. */
#define AT(name, call, type) \
    WEAK ssize_t name(int number, type bytes, size_t count, off_t from) \
    { \
        off_t before = lseek(number, 0, SEEK_CUR); \
        if (before < 0 || lseek(number, from, SEEK_SET) < 0) \
            return -1; \
        ssize_t done = call(number, bytes, count); \
        lseek(number, before, SEEK_SET); \
        return done; \
    }
AT(pread, read, void *)
AT(pwrite, write, const void *)

WEAK char *realpath(const char *restrict name, char *restrict to)
{
    if (bsp_file_named(name) == NULL && strcmp(name, ".") != 0 && strcmp(name, "/") != 0) {
        errno = ENOENT;
        return NULL;
    }
    while (name[0] == '.' && (name[1] == '/' || name[1] == '\0'))
        name += name[1] == '/' ? 2 : 1;
    if (to == NULL && (to = malloc(strlen(name) + 2)) == NULL)
        return NULL;
    sprintf(to, "%s%s", *name == '/' ? "" : "/", name);
    return to;
}

/* A folder is there as soon as a file is written into it. */
WEAK char *mkdtemp(char *name)
{
    static unsigned count = 0;
    size_t size = strlen(name);
    if (size < 6 || strcmp(name + size - 6, "XXXXXX") != 0) {
        errno = EINVAL;
        return NULL;
    }
    sprintf(name + size - 6, "%06u", count++ % 1000000);
    return name;
}

/* Nothing is waited for: files can always be read, and a node has no processes. */
WEAK int select(int count, UNUSED fd_set *read, UNUSED fd_set *written, UNUSED fd_set *failed, UNUSED struct timeval *most)
{
    return count == 0 ? 0 : refuse(ENOSYS);
}
WEAK pid_t wait(UNUSED int *status) { return refuse(ECHILD); }
WEAK pid_t waitpid(UNUSED pid_t process, UNUSED int *status, UNUSED int options) { return refuse(ECHILD); }
WEAK pid_t vfork(void) { return refuse(ENOSYS); }
WEAK int execve(UNUSED const char *name, UNUSED char *const words[], UNUSED char *const environment[]) { return refuse(ENOSYS); }
WEAK int execl(UNUSED const char *name, UNUSED const char *word, ...) { return refuse(ENOSYS); }
WEAK int execlp(UNUSED const char *name, UNUSED const char *word, ...) { return refuse(ENOSYS); }
WEAK int dup(UNUSED int number) { return refuse(ENOSYS); }
WEAK int dup2(UNUSED int number, UNUSED int to) { return refuse(ENOSYS); }

/* Mapped memory. */
WEAK void *mmap(UNUSED void *where, size_t size, int protection, int flags, int file, off_t from)
{
    int is_file = (flags & MAP_ANONYMOUS) == 0;
    if (size == 0 || (flags & MAP_FIXED) != 0 || (is_file && (flags & MAP_SHARED) != 0 && (protection & PROT_WRITE) != 0)) {
        errno = size == 0 ? EINVAL : ENODEV;
        return MAP_FAILED;
    }
    void *memory = memalign(4096, size);
    if (memory == NULL) {
        errno = ENOMEM;
        return MAP_FAILED;
    }
    memset(memory, 0, size);
    if (is_file && pread(file, memory, size, from) < 0) {
        free(memory);
        return MAP_FAILED;
    }
    return memory;
}

/* A part of what was mapped stays. */
WEAK int munmap(void *where, UNUSED size_t size)
{
    if (((uintptr_t)where & 4095) != 0)
        return refuse(EINVAL);
    free(where);
    return 0;
}
WEAK int mprotect(UNUSED void *where, UNUSED size_t size, UNUSED int protection) { return 0; }
WEAK int msync(UNUSED void *where, UNUSED size_t size, UNUSED int flags) { return 0; }
WEAK int madvise(UNUSED void *where, UNUSED size_t size, UNUSED int advice) { return 0; }
WEAK int mlock(UNUSED const void *where, UNUSED size_t size) { return 0; }
WEAK int munlock(UNUSED const void *where, UNUSED size_t size) { return 0; }

/* Addresses of four bytes. */
WEAK int inet_aton(const char *text, struct in_addr *to)
{
    uint32_t address = 0;
    for (int i = 0; i < 4; i++) {
        char *end;
        unsigned long part = strtoul(text, &end, 10);
        if (end == text || part > 255 || *end != (i < 3 ? '.' : '\0'))
            return 0;
        address = address << 8 | (uint32_t)part;
        text = end + 1;
    }
    to->s_addr = htonl(address);
    return 1;
}

WEAK in_addr_t inet_addr(const char *text)
{
    struct in_addr address;
    return inet_aton(text, &address) ? address.s_addr : INADDR_NONE;
}

WEAK int inet_pton(int family, const char *text, void *to)
{
    return family == AF_INET ? inet_aton(text, to) : refuse(EAFNOSUPPORT);
}

WEAK const char *inet_ntop(int family, const void *address, char *to, socklen_t size)
{
    const unsigned char *bytes = address;
    if (family != AF_INET || size < INET_ADDRSTRLEN) {
        errno = family != AF_INET ? EAFNOSUPPORT : ENOSPC;
        return NULL;
    }
    sprintf(to, "%d.%d.%d.%d", bytes[0], bytes[1], bytes[2], bytes[3]);
    return to;
}

WEAK char *inet_ntoa(struct in_addr address)
{
    static char text[INET_ADDRSTRLEN];
    return (char *)inet_ntop(AF_INET, &address, text, sizeof text);
}

/* Tables and lists of search.h. */
WEAK void *lfind(const void *key, const void *items, size_t *count, size_t size, int (*compare)(const void *, const void *))
{
    const char *at = items;
    for (size_t i = 0; i < *count; i++, at += size)
        if (compare(key, at) == 0)
            return (void *)at;
    return NULL;
}

WEAK void *lsearch(const void *key, void *items, size_t *count, size_t size, int (*compare)(const void *, const void *))
{
    void *found = lfind(key, items, count, size, compare);
    return found != NULL ? found : memcpy((char *)items + size * (*count)++, key, size);
}

struct link {
    struct link *next, *before;
};

WEAK void insque(void *item, void *before)
{
    struct link *it = item, *left = before;
    it->before = left;
    it->next = left != NULL ? left->next : NULL;
    if (left != NULL)
        left->next = it;
    if (it->next != NULL)
        it->next->before = it;
}

WEAK void remque(void *item)
{
    const struct link *it = item;
    if (it->before != NULL)
        it->before->next = it->next;
    if (it->next != NULL)
        it->next->before = it->before;
}
