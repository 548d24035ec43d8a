/* The transport of MPI. mpirun starts the ranks, on as many hosts as it is given. Each box is a message. */
#define _GNU_SOURCE
#include "native.h"

#include <errno.h>
#include <fcntl.h>
#include <limits.h>
#include <mpi.h>
#include <stdio.h>
#include <stdlib.h>
#include <string.h>
#include <time.h>
#include <unistd.h>

/* What a rank tells another one before it sends. */
struct head {
    struct notice notice;
    uint64_t size; /* of the box, in bytes */
};

int transport_rank, transport_ranks;
static MPI_Comm all = MPI_COMM_NULL;
static MPI_Request *requests;
static int request_count, output_file, real_output;
static int64_t shown;
static struct head *heads, *own_heads;
/* For each rank: what this one has for it and had from it. */
static struct bytes *boxes, *received, *replies, *replied;

enum { BOX, REPLY, OUTPUT };

static void *array(size_t size)
{
    void *at = transport_ranks > 0 ? calloc((size_t)transport_ranks, size) : NULL;
    if (at == NULL)
        stop(STATUS_STOPPED, "no memory is left");
    return at;
}

static void make_room(struct bytes *bytes, size_t size)
{
    if (size <= bytes->room)
        return;
    bytes->room = 2 * size;
    bytes->at = realloc(bytes->at, bytes->room);
    if (bytes->at == NULL)
        stop(STATUS_STOPPED, "no memory is left for what this superstep asks for");
}

static void *append(struct bytes *bytes, size_t size)
{
    make_room(bytes, bytes->used + size);
    bytes->used += size;
    return bytes->at + bytes->used - size;
}

void *transport_append(int to, size_t size)
{
    return append(&boxes[to], size);
}

void *transport_append_reply(int to, size_t size)
{
    return append(&replies[to], size);
}

static int as_count(size_t size)
{
    if (size > INT_MAX)
        stop(STATUS_STOPPED, "a rank is sent more than %d bytes by another one in a superstep", INT_MAX);
    return (int)size;
}

/* Begins to receive what a rank sends. */
static void begin_receiving(struct bytes *into, size_t size, int from, int tag)
{
    make_room(into, size);
    into->used = size;
    if (size > 0)
        MPI_Irecv(into->at, as_count(size), MPI_BYTE, from, tag, all, &requests[request_count++]);
}

static void begin_sending(const struct bytes *bytes, int to, int tag)
{
    if (bytes->used > 0)
        MPI_Isend(bytes->at, as_count(bytes->used), MPI_BYTE, to, tag, all, &requests[request_count++]);
}

/* Waits until all has come and gone, after which these are empty. */
static void finish(struct bytes *sent)
{
    MPI_Waitall(request_count, requests, MPI_STATUSES_IGNORE);
    request_count = 0;
    for (int rank = 0; rank < transport_ranks; rank++)
        sent[rank].used = 0;
}

/* Output: rank 0 writes that of all. */

static void write_all(const char *bytes, size_t size)
{
    while (size > 0) {
        ssize_t count = write(real_output, bytes, size);
        if (count < 0 && errno != EINTR)
            stop(STATUS_WRITE_FAILED, "standard output: %s", strerror(errno));
        bytes += count > 0 ? count : 0;
        size -= count > 0 ? (size_t)count : 0;
    }
}

static struct bytes own_output(int64_t end)
{
    static struct bytes bytes;
    bytes.used = (size_t)(end - shown);
    make_room(&bytes, bytes.used);
    if (pread(output_file, bytes.at, bytes.used, shown) != (ssize_t)bytes.used)
        stop(STATUS_WRITE_FAILED, "what was printed cannot be read back");
    return bytes;
}

/* How far each rank's output was shown: each keeps that of all. */
static void show_output(void)
{
    static int64_t *ends;
    static struct bytes other;
    if (ends == NULL)
        ends = array(sizeof *ends);
    for (int rank = 0; rank < transport_ranks; rank++) {
        int64_t size = heads[rank].notice.output - ends[rank];
        if (size > 0 && rank == transport_rank) {
            struct bytes own = own_output(heads[rank].notice.output);
            if (rank == 0)
                write_all(own.at, own.used);
            else
                MPI_Send(own.at, as_count(own.used), MPI_BYTE, 0, OUTPUT, all);
            shown += size;
        } else if (size > 0 && transport_rank == 0) {
            make_room(&other, (size_t)size);
            MPI_Recv(other.at, as_count((size_t)size), MPI_BYTE, rank, OUTPUT, all, MPI_STATUS_IGNORE);
            write_all(other.at, (size_t)size);
        }
        ends[rank] = heads[rank].notice.output;
    }
}

/* Meetings. */

void transport_meet(const struct notice *own)
{
    for (int to = 0; to < transport_ranks; to++)
        own_heads[to] = (struct head){*own, boxes[to].used};
    MPI_Alltoall(own_heads, sizeof *heads, MPI_BYTE, heads, sizeof *heads, MPI_BYTE, all);
    for (int rank = 0; rank < transport_ranks; rank++)
        begin_receiving(&received[rank], heads[rank].size, rank, BOX);
    for (int rank = 0; rank < transport_ranks; rank++)
        begin_sending(&boxes[rank], rank, BOX);
    finish(boxes);
    show_output();
}

const struct notice *transport_notice(int from)
{
    return &heads[from].notice;
}

struct bytes transport_received(int from)
{
    return received[from];
}

void transport_reply(const size_t *asked)
{
    for (int rank = 0; rank < transport_ranks; rank++)
        begin_receiving(&replied[rank], asked[rank], rank, REPLY);
    for (int rank = 0; rank < transport_ranks; rank++)
        begin_sending(&replies[rank], rank, REPLY);
    finish(replies);
}

const char *transport_replied(int from)
{
    return replied[from].at;
}

/* Beginning and end. */

/* MPI gives standard input to rank 0 alone. So each rank reads the file that BSP_INPUT names, if it does. */
void input_open(void)
{
    const char *name = getenv("BSP_INPUT");
    int file;
    if (name == NULL || *name == '\0')
        return;
    file = open(name, O_RDONLY | O_CLOEXEC);
    if (file < 0 || dup2(file, STDIN_FILENO) < 0)
        stop(STATUS_STOPPED, "BSP_INPUT: %s: %s", name, strerror(errno));
}

__attribute__((constructor(101))) static void begin(void)
{
    MPI_Init(NULL, NULL);
    MPI_Comm_dup(MPI_COMM_WORLD, &all);
    MPI_Comm_rank(all, &transport_rank);
    MPI_Comm_size(all, &transport_ranks);
    requests = array(2 * sizeof *requests);
    heads = array(sizeof *heads);
    own_heads = array(sizeof *own_heads);
    boxes = array(sizeof *boxes);
    received = array(sizeof *received);
    replies = array(sizeof *replies);
    replied = array(sizeof *replied);
    real_output = fcntl(STDOUT_FILENO, F_DUPFD_CLOEXEC, STDERR_FILENO + 1);
    output_file = output_new_file();
    if (output_file < 0)
        stop(STATUS_STOPPED, "a file in memory for what is printed cannot be opened");
    output_capture(output_file);
    input_open();
}

void transport_keep(int ranks)
{
    MPI_Comm kept;
    MPI_Comm_split(all, transport_rank < ranks, transport_rank, &kept);
    if (transport_rank >= ranks) {
        MPI_Finalize();
        _exit(EXIT_SUCCESS);
    }
    all = kept;
    transport_ranks = ranks;
}

/* What was printed since the last meeting is written by each rank itself, as no other one waits for it. MPI_Abort ends all at once, and mpirun
   passes nothing on then: so rank 0, which may still write what was printed before the last meeting, and mpirun have a while for it. */
void transport_stop(int status)
{
    const struct timespec a_while = {0, 300 * 1000 * 1000};
    static int is_stopping;
    if (is_stopping++)
        MPI_Abort(MPI_COMM_WORLD, status);
    fflush(stdout);
    for (struct bytes left = own_output(lseek(output_file, 0, SEEK_END)); left.used > 0;) {
        ssize_t count = write(real_output, left.at, left.used);
        if (count <= 0)
            break;
        left.at += count;
        left.used -= (size_t)count;
    }
    nanosleep(&a_while, NULL);
    MPI_Abort(MPI_COMM_WORLD, status);
    _exit(status);
}

void transport_leave(void)
{
    MPI_Finalize();
}
