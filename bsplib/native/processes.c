/* The transport of one host. Each rank is a process with a memory of its own, as all are split off before main begins, and one mapping of
   memory is shared: it has a box for each rank from each rank. The first process runs no rank. It waits for the others, and ends them all
   where one of them is stopped.

   Boxes and notices are there twice, for supersteps in turn: a rank that is one superstep ahead writes the others. What is read after a
   meeting is so left alone until all have come to the next one. */
#define _GNU_SOURCE
#include "native.h"

#include <errno.h>
#include <fcntl.h>
#include <limits.h>
#include <linux/futex.h>
#include <sched.h>
#include <signal.h>
#include <stdatomic.h>
#include <stdio.h>
#include <stdlib.h>
#include <string.h>
#include <sys/mman.h>
#include <sys/prctl.h>
#include <sys/syscall.h>
#include <sys/wait.h>
#include <unistd.h>

/* Each box has its room from the beginning; of this, the host takes the memory that was written. */
#define MOST_MAPPED ((size_t)1 << 42)
enum { MOST_RANKS = 256, LEAST_BOX = 1 << 16, SPINS = 1500, LINE = 64 };
/* For how many milliseconds rank 0 may go on to write output that nobody takes, once another rank was stopped. */
enum { MOST_WAITS = 2000 };
/* Who writes the output of all ranks. */
enum { NOBODY, RANK_0, FIRST_PROCESS };

struct meeting_place {
    _Alignas(LINE) atomic_uint arrived;
    _Alignas(LINE) atomic_uint turn;
    atomic_uint sleepers;
    atomic_int writer;
    _Alignas(LINE) int ranks;
    _Alignas(LINE) struct notice notices[2][MOST_RANKS];
    size_t used[2][MOST_RANKS][MOST_RANKS];
    int64_t shown[MOST_RANKS];
    char has_left[MOST_RANKS];
};

int transport_rank, transport_ranks;
static struct meeting_place *place;
static char *boxes;
static size_t box_room;
static int started, files[MOST_RANKS], real_output, spins;
static pid_t processes[MOST_RANKS];

/* This rank's boxes for the others in this superstep, its answers to them, and of which of the two supersteps the notices are. */
static struct bytes box[MOST_RANKS], replies[MOST_RANKS];
static unsigned parity;

/* The meeting. */

static void sleep_until_turned(unsigned turn)
{
    atomic_fetch_add(&place->sleepers, 1);
    while (atomic_load(&place->turn) == turn)
        syscall(SYS_futex, &place->turn, FUTEX_WAIT, turn, NULL, NULL, 0);
    atomic_fetch_sub(&place->sleepers, 1);
}

/* Waits until all ranks are here. Who waits looks for a while whether they are, and sleeps then, so that others may have the processor. */
static void wait_for_all(void)
{
    unsigned turn = atomic_load(&place->turn);
    if (atomic_fetch_add(&place->arrived, 1) + 1 == (unsigned)transport_ranks) {
        atomic_store(&place->arrived, 0);
        atomic_fetch_add(&place->turn, 1);
        if (atomic_load(&place->sleepers) > 0)
            syscall(SYS_futex, &place->turn, FUTEX_WAKE, INT_MAX, NULL, NULL, 0);
        return;
    }
    for (int spin = 0; spin < spins; spin++) {
        if (atomic_load(&place->turn) != turn)
            return;
#if defined __x86_64__ || defined __i386__
        __builtin_ia32_pause();
#endif
    }
    sleep_until_turned(turn);
}

/* The boxes of two supersteps, and then the answers, each from each rank to each rank. */
static char *box_at(unsigned which, int from, int to)
{
    return boxes + (((size_t)which * (size_t)started + (size_t)from) * (size_t)started + (size_t)to) * box_room;
}

static void *append(struct bytes *bytes, char *at, size_t size)
{
    void *room = at + bytes->used;
    if (size > box_room - bytes->used)
        stop(STATUS_STOPPED, "a rank is sent more than %zu bytes by another one in a superstep", box_room);
    bytes->used += size;
    return room;
}

void *transport_append(int to, size_t size)
{
    return append(&box[to], box_at(parity, transport_rank, to), size);
}

/* Rank 0 writes nothing more once the first process has begun to: that ends it then. */
static void show_output(void)
{
    int nobody = NOBODY;
    if (!atomic_compare_exchange_strong(&place->writer, &nobody, RANK_0))
        return;
    for (int rank = 0; rank < transport_ranks; rank++) {
        int64_t end = place->notices[parity][rank].output;
        if (end <= place->shown[rank])
            continue;
        if (output_copy(files[rank], place->shown[rank], end, real_output) != 0)
            stop(STATUS_WRITE_FAILED, "standard output: %s", strerror(errno));
        fallocate(files[rank], FALLOC_FL_PUNCH_HOLE | FALLOC_FL_KEEP_SIZE, 0, end);
        place->shown[rank] = end;
    }
    atomic_store(&place->writer, NOBODY);
}

/* After it the notices and boxes of the others are those of `parity`, and this rank fills those of the other one from the next call of
   transport_append on. */
static unsigned received_parity;
void transport_meet(const struct notice *own)
{
    place->notices[parity][transport_rank] = *own;
    for (int to = 0; to < transport_ranks; to++) {
        place->used[parity][transport_rank][to] = box[to].used;
        box[to].used = replies[to].used = 0;
    }
    wait_for_all();
    if (transport_rank == 0)
        show_output();
    received_parity = parity;
    parity ^= 1;
}

const struct notice *transport_notice(int from)
{
    return &place->notices[received_parity][from];
}

struct bytes transport_received(int from)
{
    return (struct bytes){box_at(received_parity, from, transport_rank), place->used[received_parity][from][transport_rank], box_room};
}

enum { REPLIES = 2 };

void *transport_append_reply(int to, size_t size)
{
    return append(&replies[to], box_at(REPLIES, transport_rank, to), size);
}

void transport_reply(const size_t *asked)
{
    (void)asked;
    wait_for_all();
}

const char *transport_replied(int from)
{
    return box_at(REPLIES, from, transport_rank);
}

/* The beginning. */

static _Noreturn void refuse(const char *text)
{
    fprintf(stderr, "bsp: %s\n", text);
    exit(EXIT_FAILURE);
}

static int wanted_ranks(void)
{
    const char *text = getenv("BSP_PROCS");
    char *end;
    long ranks;
    if (text == NULL || *text == '\0')
        return 1;
    ranks = strtol(text, &end, 10);
    if (*end != '\0' || ranks < 1 || ranks > MOST_RANKS)
        refuse("BSP_PROCS has to be a whole number from 1 to 256");
    return (int)ranks;
}

/* A mapping that the processes share. It is zero, and takes no memory before it is written. */
static void *map(size_t size)
{
    void *at = mmap(NULL, size, PROT_READ | PROT_WRITE, MAP_SHARED | MAP_ANONYMOUS | MAP_NORESERVE, -1, 0);
    return at == MAP_FAILED ? NULL : at;
}

/* Boxes as large as they can be: a limit of the address space makes them smaller. */
static void map_boxes(void)
{
    size_t count = (size_t)3 * (size_t)started * (size_t)started;
    for (box_room = MOST_MAPPED / count & ~(size_t)4095; box_room >= LEAST_BOX; box_room = box_room / 2 & ~(size_t)4095) {
        boxes = map(count * box_room);
        if (boxes != NULL)
            return;
    }
    refuse("there is no memory for what the processes send to one another: give fewer by BSP_PROCS, or a greater limit by ulimit -v");
}

/* Where a standard stream is closed, a file that is opened next would be taken for it. */
static void open_standard_streams(void)
{
    int file;
    do
        file = open("/dev/null", O_RDONLY);
    while (file >= 0 && file <= STDERR_FILENO);
    close(file);
}

static void open_files(void)
{
    open_standard_streams();
    real_output = fcntl(STDOUT_FILENO, F_DUPFD_CLOEXEC, STDERR_FILENO + 1);
    for (int rank = 0; rank < started; rank++) {
        files[rank] = output_new_file();
        if (files[rank] < 0 || real_output < 0)
            refuse("a file in memory for what is printed cannot be opened");
    }
}

static int processors(void)
{
    cpu_set_t set;
    return sched_getaffinity(0, sizeof set, &set) == 0 ? CPU_COUNT(&set) : 1;
}

static void begin_rank(int rank, pid_t parent)
{
    transport_rank = rank;
    prctl(PR_SET_PDEATHSIG, SIGKILL);
    if (getppid() != parent)
        _exit(EXIT_FAILURE);
    for (int other = 0; rank != 0 && other < started; other++)
        if (other != rank)
            close(files[other]);
    output_capture(files[rank]);
    input_open();
}

/* The first process, once the ranks are there. */

/* Rank 0 is not ended in the middle of writing, since nobody would know how much of it was written. */
static void become_writer(void)
{
    for (int waits = 0; waits < MOST_WAITS && processes[0] > 0; waits++) {
        int writer = NOBODY;
        if (atomic_compare_exchange_strong(&place->writer, &writer, FIRST_PROCESS) || writer == FIRST_PROCESS)
            return;
        usleep(1000);
    }
}

static void end_others(void)
{
    become_writer();
    for (int rank = 0; rank < started; rank++)
        if (processes[rank] > 0)
            kill(processes[rank], SIGKILL);
}

static int rank_of(pid_t process)
{
    int rank = 0;
    while (rank < started && processes[rank] != process)
        rank++;
    return rank;
}

/* Waits for all ranks. Answers how the first one ended that did not end well, or 0. */
static int wait_for_ends(void)
{
    int first = 0, how;
    for (int left = started; left > 0; left--) {
        pid_t process = wait(&how);
        int rank = rank_of(process);
        if (process < 0)
            break;
        if (rank < started)
            processes[rank] = 0;
        if (first != 0 || rank == started || (how == 0 && place->has_left[rank]))
            continue;
        first = how != 0 ? how : STATUS_NOT_MET << 8;
        if (how == 0)
            fprintf(stderr, "bsp: rank %d has ended by _exit, and the others would wait for it\n", rank);
        else if (WIFSIGNALED(how) && WTERMSIG(how) != SIGINT && WTERMSIG(how) != SIGPIPE)
            fprintf(stderr, "bsp: rank %d was ended by signal %d: %s\n", rank, WTERMSIG(how), strsignal(WTERMSIG(how)));
        end_others();
    }
    return first;
}

static _Noreturn void watch(void)
{
    int how;
    signal(SIGINT, SIG_IGN);
    signal(SIGQUIT, SIG_IGN);
    how = wait_for_ends();
    for (int rank = 0; rank < place->ranks && !(WIFSIGNALED(how) && WTERMSIG(how) == SIGPIPE); rank++)
        if (output_copy(files[rank], place->shown[rank], lseek(files[rank], 0, SEEK_END), real_output) != 0) {
            fprintf(stderr, "bsp: standard output: %s\n", strerror(errno));
            _exit(STATUS_WRITE_FAILED);
        }
    if (WIFSIGNALED(how)) {
        signal(WTERMSIG(how), SIG_DFL);
        prctl(PR_SET_DUMPABLE, 0);
        raise(WTERMSIG(how));
    }
    _exit(WIFEXITED(how) ? WEXITSTATUS(how) : EXIT_FAILURE);
}

static void split_off(void)
{
    pid_t parent = getpid();
    for (int rank = 0; rank < started; rank++) {
        processes[rank] = fork();
        if (processes[rank] == 0) {
            begin_rank(rank, parent);
            return;
        }
        if (processes[rank] < 0) {
            end_others();
            refuse("a process cannot be started: give fewer by BSP_PROCS, or a greater limit by ulimit -u");
        }
    }
    watch();
}

__attribute__((constructor(101))) static void begin(void)
{
    started = transport_ranks = wanted_ranks();
    spins = started <= processors() ? SPINS : 0;
    place = map(sizeof *place);
    if (place == NULL)
        refuse("there is no memory that processes can share");
    place->ranks = started;
    map_boxes();
    open_files();
    input_prepare();
    split_off();
}

/* The end. */

/* The ranks that go on write the next notices only when all have read these. */
void transport_keep(int ranks)
{
    wait_for_all();
    if (transport_rank >= ranks) {
        transport_leave();
        _exit(EXIT_SUCCESS);
    }
    transport_ranks = ranks;
    place->ranks = ranks;
}

void transport_stop(int status)
{
    fflush(stdout);
    _exit(status);
}

void transport_leave(void)
{
    place->has_left[transport_rank] = 1;
}
