/* What the files of the native library share. bsp.c has BSPlib's functions and exchange.c the end of a superstep; both stand on a transport,
   which is processes.c for one host and mpi.c for MPI. */
#ifndef BSP_NATIVE_H
#define BSP_NATIVE_H

#include <stddef.h>
#include <stdint.h>
#include <sys/types.h>

enum { STATUS_WRITE_FAILED = 1, STATUS_STOPPED = 2, STATUS_NOT_MET = 4 };

/* Where a rank waits for the others. All have to wait at the same. */
enum meeting { AT_BEGIN, AT_SYNC, AT_END };

/* What each rank tells all others where they meet. */
struct notice {
    int32_t meeting;
    int32_t number;         /* the argument of bsp_begin, the next tag size, or the status of the program */
    uint64_t registrations; /* a digest of all pushes and pops so far */
    uint64_t wanted;        /* above 0 where it called bsp_get */
    int64_t output;         /* where in its output the last line ends that may be shown */
};

/* A request in the box that its rank has for another one. Its bytes follow it: of a put those to write, of a message the tag and the payload,
   each from a multiple of 8 on. */
enum kind { PUT, GET, MESSAGE };
struct request {
    uint32_t kind;
    uint32_t place;  /* the position of the area among those registered; of a message the bytes of its tag */
    uint64_t offset;
    uint64_t size;   /* in bytes; of a message that of its payload */
};

/* Bytes in a row. */
struct bytes {
    char *at;
    size_t used, room;
};

/* The transport. Rank and number of ranks are known before main begins. */
extern int transport_rank, transport_ranks;

/* Room in the box for a rank, which finds it there at the next meeting. It stays where it is until the next call. */
void *transport_append(int to, size_t size);

/* Waits for all ranks, and exchanges notices and boxes. The output that may be shown is. */
void transport_meet(const struct notice *own);
const struct notice *transport_notice(int from);
struct bytes transport_received(int from);

/* Answers to what was asked for by bsp_get: room for the next one, and then their exchange. asked has, for each rank, the bytes that this one
   waits for. What came is there until the next meeting. */
void *transport_append_reply(int to, size_t size);
void transport_reply(const size_t *asked);
const char *transport_replied(int from);

/* Goes on with this number of ranks; the others end. */
void transport_keep(int ranks);

/* Ends all ranks, with this status. */
_Noreturn void transport_stop(int status);

/* The end of a rank that ends as the others do. */
void transport_leave(void);

/* What a rank writes to standard output is kept in a file of its own, and shown by rank 0, superstep by superstep, in the order of ranks. */
int output_new_file(void);
void output_capture(int file);
int64_t output_end(int has_ended);
/* Writes the bytes from begin to end of one file to another one. Answers 0, or -1 with errno. */
int output_copy(int from, int64_t begin, int64_t end, int to);

/* Standard input, which each rank reads from its first byte on. */
void input_prepare(void);
void input_open(void);

/* Says in a line what is wrong, and ends all ranks. */
_Noreturn __attribute__((format(printf, 2, 3))) void stop(int status, const char *format, ...);

/* The same of what all ranks find: one of them says it. */
_Noreturn __attribute__((format(printf, 2, 3))) void stop_together(int status, const char *format, ...);

/* An element behind the last one of an array, which is moved where it has no room left. */
void *grown(void *array, size_t count, size_t *room, size_t size);

/* The registered areas that are in effect. */
struct area {
    const void *at;
    size_t size;
};
extern struct area *areas;
extern size_t area_count;

/* What bsp_get asked for, in the order of the calls. */
struct want {
    void *to;
    size_t size;
    int from;
};
extern struct want *wants;
extern size_t want_count;

/* The messages that came, of which those before the first are gone. */
extern struct request **messages;
extern size_t message_count, first_message;

/* The bytes that something takes of a box. */
static inline size_t rounded(size_t size)
{
    return (size + 7) & ~(size_t)7;
}

/* Waits for all ranks, who have to be at the same meeting. */
void meet(enum meeting meeting, int number);

/* Has happen what was asked for. */
void exchange(void);

/* For level1.c, as the nodes' library has them. */
_Noreturn void bsp_stop(const char *text);
_Noreturn void bsp_stop_with(const char *before, int number, const char *after);

#endif
