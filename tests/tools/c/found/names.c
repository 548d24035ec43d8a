/* The names that other BSPlibs have, with sizes as size_t, and what a program asks of its host. */
#include <err.h>
#include <errno.h>
#include <omp.h>
#include <pthread.h>
#include <semaphore.h>
#include <stdio.h>
#include <stdlib.h>
#include <string.h>
#include <sys/resource.h>
#include <sys/stat.h>
#include <sys/times.h>
#include <sys/utsname.h>
#include <time.h>
#include <unistd.h>

#include "mcbsp.h"

static pthread_mutex_t lock = PTHREAD_MUTEX_INITIALIZER;
static int calls = 0;

static void last(void)
{
    printf("%d\n", calls);
}

static void around(void)
{
    size_t tag = sizeof(int), count, bytes, status;
    bsp_nprocs_t packets;
    bsp_size_t size;
    int value = (int)bsp_pid(), sum = 0, i;
    bsp_begin(bsp_nprocs());
    bsp_set_tagsize(&tag);
    bsp_pushregister(&sum, sizeof sum);
    bsp_sync();
    bsp_hpsend((value + 1) % bsp_nprocs(), &value, &value, sizeof value);
    bsp_sync();
    bsp_qsize(&count, &bytes);
    bsp_qsize(&packets, &size);
    if (count != (size_t)packets || bytes != (size_t)size || tag != 0)
        bsp_abort("the counts differ\n");
    bsp_get_tag(&status, &value);
    bsp_move(&sum, status);
    bsp_popregister(&sum);
    bsp_get_tag(&status, NULL);
    if (status != (size_t)-1)
        bsp_abort("there is one more\n");
#pragma omp parallel for
    for (i = 0; i < 10; i++) {
        pthread_mutex_lock(&lock);
        calls += 1 + omp_get_thread_num();
        pthread_mutex_unlock(&lock);
    }
    printf("%d: %zu of %zu bytes, %d\n", (int)bsp_pid(), count, bytes, sum);
    bsp_end();
}

static void host(void)
{
    char name[64], folder[64];
    struct utsname machine;
    struct stat file;
    struct tms spent;
    struct timespec wait = {1, 0};
    if (gethostname(name, sizeof name) != 0 || uname(&machine) != 0 || getcwd(folder, sizeof folder) == NULL)
        err(1, "who am I");
    usleep(10);
    sleep(1);
    nanosleep(&wait, NULL);
    dprintf(STDOUT_FILENO, "%s %s %s, %ld of them\n", name, machine.machine, folder, sysconf(_SC_NPROCESSORS_ONLN));
    if (access("matrix.txt", R_OK) != 0 || access("matrix.txt", W_OK) == 0 || access("other.txt", F_OK) == 0)
        errx(1, "access");
    if (stat("matrix.txt", &file) != 0 || !S_ISREG(file.st_mode) || file.st_size != 64 || stat("other.txt", &file) == 0)
        errx(1, "stat");
    warn("other.txt");
    printf("%d\n", (int)times(&spent));
}

int main(int argc, char **argv)
{
    bsp_init(around, argc, argv);
    around();
    if (bsp_dtime() < 0.0 || bsp_dtime() < 0.0)
        return 1;
    host();
    at_quick_exit(last);
    quick_exit(0);
}
