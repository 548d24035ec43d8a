/* BSPlib by processes of the host: the first rank is the program's own process, and bsp_begin makes the others. What a superstep asks for goes
   into memory that all share, and is done at its end: all gets read first, then what was put and got lands, in the order of ranks.

   The number of processes is BSP_PROCS of the environment. */
#include "bsp.h"

#include <pthread.h>
#include <stdarg.h>
#include <stdio.h>
#include <stdlib.h>
#include <string.h>
#include <sys/mman.h>
#include <sys/time.h>
#include <sys/wait.h>
#include <unistd.h>

enum { MOST_RANKS = 16, MOST_SLOTS = 256, ROOM = 1 << 23, MOST_ITEMS = 1 << 16 };
enum kind { PUT, GET, SEND };

/* A request: to or from which rank, which area, where in it, and where its bytes stand in the asking rank's room. `place` is where those of a
   get go to, and of a message the bytes of its tag. */
struct item {
    enum kind kind;
    int rank, slot, offset, size;
    size_t at;
    void *place;
};

struct shared {
    pthread_barrier_t barrier;
    struct rank {
        int count;
        size_t used;
        struct item items[MOST_ITEMS];
        char room[ROOM];
    } ranks[MOST_RANKS];
};

static struct shared *shared;
static int procs = 1, me = 0;
static const void *slots[MOST_SLOTS];
static int slot_count = 0;
/* What registrations and tags ask for, up to the end of the superstep. */
static struct { const void *ident; int is_push; } changes[MOST_SLOTS];
static int change_count = 0, tag_size = 0, next_tag_size = 0;
static struct { int rank, item; } queue[MOST_ITEMS];
static int queue_count = 0, queue_next = 0;
/* The messages of the last superstep, which are read while others are sent. */
static char *kept;

void bsp_init(void (*spmd)(void), int argc, char **argv)
{
    (void)spmd;
    (void)argc;
    (void)argv;
}

int bsp_nprocs(void)
{
    const char *text = getenv("BSP_PROCS");
    return shared != NULL ? procs : text != NULL ? atoi(text) : 1;
}

int bsp_pid(void) { return me; }

double bsp_time(void)
{
    struct timeval now;
    gettimeofday(&now, NULL);
    return (double)now.tv_sec + (double)now.tv_usec * 1e-6;
}

static void meet(void) { pthread_barrier_wait(&shared->barrier); }

/* Where standard output goes, and the file in which a rank's own output waits for its turn. */
static int output = 1, waiting = -1;

/* Has the ranks write what they have printed, one after another. */
static void flush_in_order(void)
{
    static char bytes[4096];
    static off_t place = 0;
    fflush(NULL);
    for (int rank = 0; rank < procs; rank++) {
        for (ssize_t count = 1; rank == me && count > 0;) {
            count = pread(waiting, bytes, sizeof bytes, place);
            if (count > 0 && write(output, bytes, (size_t)count) != count)
                abort();
            place += count > 0 ? count : 0;
        }
        meet();
    }
}

/* Has this rank's output wait. */
static void hold_output(void)
{
    FILE *file = tmpfile();
    output = dup(1);
    waiting = fileno(file);
    dup2(waiting, 1);
}

void bsp_begin(int most)
{
    pthread_barrierattr_t how;
    int wanted = bsp_nprocs();
    procs = wanted < most ? wanted : most;
    shared = mmap(NULL, sizeof *shared, PROT_READ | PROT_WRITE, MAP_SHARED | MAP_ANONYMOUS | MAP_NORESERVE, -1, 0);
    pthread_barrierattr_init(&how);
    pthread_barrierattr_setpshared(&how, PTHREAD_PROCESS_SHARED);
    pthread_barrier_init(&shared->barrier, &how, (unsigned)procs);
    fflush(NULL);
    kept = malloc(ROOM * (size_t)procs);
    for (int rank = 1; rank < procs; rank++)
        if (fork() == 0) {
            me = rank;
            break;
        }
    hold_output();
}

void bsp_end(void)
{
    flush_in_order();
    if (me > 0)
        _exit(0);
    while (wait(NULL) > 0) {
    }
    dup2(output, 1);
}

void bsp_abort(const char *format, ...)
{
    va_list arguments;
    va_start(arguments, format);
    vfprintf(stderr, format, arguments);
    va_end(arguments);
    exit(1);
}

static int slot_of(const void *ident)
{
    for (int i = slot_count - 1; i >= 0; i--)
        if (slots[i] == ident)
            return i;
    bsp_abort("an area is not registered\n");
    return -1;
}

static struct item *ask(enum kind kind, int rank, int size)
{
    struct rank *mine = &shared->ranks[me];
    struct item *it = &mine->items[mine->count++];
    *it = (struct item){.kind = kind, .rank = rank, .size = size, .at = mine->used};
    mine->used += (size_t)size + (kind == SEND ? (size_t)tag_size : 0);
    if (mine->used > ROOM || mine->count == MOST_ITEMS)
        bsp_abort("a superstep is too large for the host\n");
    return it;
}

void bsp_put(int pid, const void *src, void *dst, int offset, int nbytes)
{
    struct item *it = ask(PUT, pid, nbytes);
    it->slot = slot_of(dst);
    it->offset = offset;
    memcpy(shared->ranks[me].room + it->at, src, (size_t)nbytes);
}

void bsp_get(int pid, const void *src, int offset, void *dst, int nbytes)
{
    struct item *it = ask(GET, pid, nbytes);
    it->slot = slot_of(src);
    it->offset = offset;
    it->place = dst;
}

void bsp_hpput(int pid, const void *src, void *dst, int offset, int nbytes) { bsp_put(pid, src, dst, offset, nbytes); }
void bsp_hpget(int pid, const void *src, int offset, void *dst, int nbytes) { bsp_get(pid, src, offset, dst, nbytes); }

void bsp_send(int pid, const void *tag, const void *payload, int nbytes)
{
    struct item *it = ask(SEND, pid, nbytes);
    memcpy(shared->ranks[me].room + it->at, tag, (size_t)tag_size);
    memcpy(shared->ranks[me].room + it->at + tag_size, payload, (size_t)nbytes);
    it->offset = tag_size;
}

void bsp_push_reg(const void *ident, int size)
{
    (void)size;
    changes[change_count].ident = ident;
    changes[change_count++].is_push = 1;
}

void bsp_pop_reg(const void *ident)
{
    changes[change_count].ident = ident;
    changes[change_count++].is_push = 0;
}

void bsp_set_tagsize(int *size)
{
    int before = tag_size;
    next_tag_size = *size;
    *size = before;
}

/* Reads what the others get from this rank, into their rooms. */
static void serve(void)
{
    for (int rank = 0; rank < procs; rank++)
        for (int i = 0; i < shared->ranks[rank].count; i++) {
            struct item *it = &shared->ranks[rank].items[i];
            if (it->kind == GET && it->rank == me)
                memcpy(shared->ranks[rank].room + it->at, (const char *)slots[it->slot] + it->offset, (size_t)it->size);
        }
}

static void land(void)
{
    queue_count = queue_next = 0;
    for (int i = 0; i < shared->ranks[me].count; i++) {
        struct item *it = &shared->ranks[me].items[i];
        if (it->kind == GET)
            memcpy(it->place, shared->ranks[me].room + it->at, (size_t)it->size);
    }
    for (int rank = 0; rank < procs; rank++)
        for (int i = 0; i < shared->ranks[rank].count; i++) {
            struct item *it = &shared->ranks[rank].items[i];
            if (it->kind == PUT && it->rank == me)
                memcpy((char *)(size_t)slots[it->slot] + it->offset, shared->ranks[rank].room + it->at, (size_t)it->size);
            if (it->kind == SEND && it->rank == me) {
                queue[queue_count].rank = rank;
                queue[queue_count++].item = i;
            }
        }
}

/* The messages of a superstep, as long as they are read. */
static struct item *mail;

static void keep_mail(void)
{
    size_t used = 0;
    mail = realloc(mail, sizeof *mail * (size_t)(queue_count + 1));
    for (int i = 0; i < queue_count; i++) {
        struct item *it = &shared->ranks[queue[i].rank].items[queue[i].item];
        mail[i] = *it;
        mail[i].at = used;
        memcpy(kept + used, shared->ranks[queue[i].rank].room + it->at, (size_t)(it->size + it->offset));
        used += (size_t)(it->size + it->offset);
    }
}

static void change_areas(void)
{
    for (int i = 0; i < change_count; i++)
        if (changes[i].is_push)
            slots[slot_count++] = changes[i].ident;
        else {
            int at = slot_of(changes[i].ident);
            memmove(slots + at, slots + at + 1, sizeof *slots * (size_t)(--slot_count - at));
        }
    change_count = 0;
    tag_size = next_tag_size;
}

void bsp_sync(void)
{
    flush_in_order();
    serve();
    meet();
    land();
    keep_mail();
    meet();
    shared->ranks[me].count = 0;
    shared->ranks[me].used = 0;
    change_areas();
    meet();
}

void bsp_qsize(int *count, int *bytes)
{
    *count = queue_count - queue_next;
    if (bytes != NULL) {
        *bytes = 0;
        for (int i = queue_next; i < queue_count; i++)
            *bytes += mail[i].size;
    }
}

void bsp_get_tag(int *status, void *tag)
{
    *status = queue_next < queue_count ? mail[queue_next].size : -1;
    if (queue_next < queue_count)
        memcpy(tag, kept + mail[queue_next].at, (size_t)mail[queue_next].offset);
}

void bsp_move(void *payload, int nbytes)
{
    struct item *it = &mail[queue_next++];
    memcpy(payload, kept + it->at + it->offset, (size_t)(nbytes < it->size ? nbytes : it->size));
}

int bsp_hpmove(void **tag, void **payload)
{
    if (queue_next == queue_count)
        return -1;
    *tag = kept + mail[queue_next].at;
    *payload = kept + mail[queue_next].at + mail[queue_next].offset;
    return mail[queue_next++].size;
}
