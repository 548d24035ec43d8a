/* Standard input on one host. The processes would share a place in it, but each rank reads it from its first byte on. A file is opened
   again by each of them. Anything else, as a pipe or a terminal, is read when a rank asks for what none has read yet, and kept for all. */
#define _GNU_SOURCE
#include "native.h"

#include <errno.h>
#include <fcntl.h>
#include <pthread.h>
#include <stdio.h>
#include <stdlib.h>
#include <sys/mman.h>
#include <sys/stat.h>
#include <unistd.h>

/* What was read so far, for all ranks. */
struct kept {
    pthread_mutex_t lock;
    int64_t size;
    int has_ended;
};
static struct kept *kept;
static int kept_file, real_input;
static int64_t begun_at, position;

static int is_file(void)
{
    struct stat found;
    return fstat(STDIN_FILENO, &found) == 0 && S_ISREG(found.st_mode);
}

void input_prepare(void)
{
    pthread_mutexattr_t shared;
    begun_at = is_file() ? lseek(STDIN_FILENO, 0, SEEK_CUR) : 0;
    kept = mmap(NULL, sizeof *kept, PROT_READ | PROT_WRITE, MAP_SHARED | MAP_ANONYMOUS, -1, 0);
    kept_file = memfd_create("standard input", MFD_CLOEXEC);
    real_input = fcntl(STDIN_FILENO, F_DUPFD_CLOEXEC, STDERR_FILENO + 1);
    if (kept == MAP_FAILED || kept_file < 0 || real_input < 0) {
        fprintf(stderr, "bsp: standard input cannot be shared by the processes\n");
        exit(EXIT_FAILURE);
    }
    pthread_mutexattr_init(&shared);
    pthread_mutexattr_setpshared(&shared, PTHREAD_PROCESS_SHARED);
    pthread_mutex_init(&kept->lock, &shared);
}

/* Reads on, if this rank has had all that was read. Only the rank that has the lock does. */
static int read_on(char *bytes, size_t size)
{
    ssize_t count;
    if (position < kept->size || kept->has_ended)
        return 0;
    count = read(real_input, bytes, size);
    if (count > 0 && pwrite(kept_file, bytes, (size_t)count, kept->size) != count)
        count = -1;
    if (count < 0)
        return -1;
    kept->size += count;
    kept->has_ended = count == 0;
    return 0;
}

static ssize_t read_kept(void *unused, char *bytes, size_t size)
{
    ssize_t count = -1;
    (void)unused;
    pthread_mutex_lock(&kept->lock);
    if (read_on(bytes, size) == 0)
        count = pread(kept_file, bytes, size, position);
    pthread_mutex_unlock(&kept->lock);
    if (count > 0)
        position += count;
    return count;
}

/* In each rank. */
void input_open(void)
{
    if (is_file()) {
        int again = open("/proc/self/fd/0", O_RDONLY | O_CLOEXEC);
        if (again >= 0 && lseek(again, begun_at, SEEK_SET) >= 0)
            dup2(again, STDIN_FILENO);
    } else {
        FILE *shared = fopencookie(NULL, "r", (cookie_io_functions_t){.read = read_kept});
        if (shared != NULL)
            stdin = shared;
    }
}
