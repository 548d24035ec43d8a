/* BSPlib's functions over the machine's calls, which no C library has. */
#include "bsp.h"
#include "machine.h"

extern void *malloc(size_t size);
extern void free(void *place);
__attribute__((noreturn)) extern void exit(int status);

/* A test for each function, so that a program which calls one outside its place is told by name. */
static inline void must_be_within(const char *name_and_rest)
{
    if (bsp_part != BSP_WITHIN)
        bsp_stop(name_and_rest);
}
#define MUST_BE_WITHIN(name) must_be_within(name " is called outside bsp_begin and bsp_end")

/* Whether bsp_init was called: what stands before bsp_begin is then rank 0's alone. */
static int is_initialized = 0;

void bsp_init(void (*spmd)(void), int argc, char **argv)
{
    (void)argc;
    (void)argv;
    if (bsp_part != BSP_BEFORE)
        bsp_stop("bsp_init is called after bsp_begin");
    is_initialized = 1;
    if (bsp_pid() != 0) {
        spmd();
        exit(0);
    }
}

/* The run cannot begin with so many nodes. Where all ranks find that, one line is enough. */
__attribute__((noreturn)) static void refuse_nodes(int maxprocs)
{
    if (maxprocs < 1)
        bsp_stop_with("bsp_begin is called with ", maxprocs,
                      is_initialized ? " processes, and takes 1 or more"
                                     : " processes, and takes 1 or more: call bsp_init first where rank 0 alone has the number");
    if (bsp_pid() == 0)
        bsp_stop_with("there are more nodes than the program takes in bsp_begin: bsprun -n ", maxprocs, " gives as many");
    for (;;)
        machine_call_2(CALL_ABORT, 0, 0);
}

void bsp_begin(int maxprocs)
{
    if (bsp_part != BSP_BEFORE)
        bsp_stop("bsp_begin is called twice");
    if (bsp_nprocs() > maxprocs && !(is_initialized && bsp_pid() != 0))
        refuse_nodes(maxprocs);
    bsp_part = BSP_WITHIN;
}

/* Where the last put, get or message of this superstep was asked for, or NULL. */
static const void *last_request = NULL;
#define ASKED() (last_request = __builtin_return_address(0))

/* bsp_end, with 0 as a value that nobody asks for: a `void main` which ends with bsp_end returns it. */
int bsp_end_with_0(void) __asm__("bsp_end");
int bsp_end_with_0(void)
{
    MUST_BE_WITHIN("bsp_end");
    bsp_stdio_flush();
    if (last_request != NULL)
        bsp_note(NOTE_PENDING, last_request, 0, 0, "");
    bsp_part = BSP_AFTER;
    return 0;
}

int bsp_nprocs(void)
{
    return machine_call_0(CALL_NPROCS);
}

int bsp_pid(void)
{
    return machine_call_0(CALL_PID);
}

/* The tag sizes of this superstep and the next one, and of the messages that are in the queue. */
static int tag_size = 0, next_tag_size = 0, received_tag_size = 0;

/* Memory for the messages that bsp_hpmove gives out in this superstep, in pieces: a tag or a payload that does not fit into what the last
   piece has left takes a new one. */
enum { USUAL_PIECE = 1024 };
struct piece {
    struct piece *before;
    size_t size;
    double bytes[];
};
static struct {
    struct piece *last;
    char *next; /* NULL where this superstep has not used it */
    size_t left;
} room;

void bsp_sync(void)
{
    MUST_BE_WITHIN("bsp_sync");
    bsp_look_at_guards();
    /* What standard error has belongs to this superstep, and so do whole lines, which were written already. */
    bsp_stdio_hold();
    machine_call_0(CALL_SYNC);
    bsp_superstep++;
    last_request = NULL;
    received_tag_size = tag_size;
    tag_size = next_tag_size;
    room.next = NULL;
}

void bsp_push_reg(const void *ident, int size)
{
    MUST_BE_WITHIN("bsp_push_reg");
    machine_call_2(CALL_PUSH_REG, (long)ident, size);
}

void bsp_pop_reg(const void *ident)
{
    MUST_BE_WITHIN("bsp_pop_reg");
    machine_call_2(CALL_POP_REG, (long)ident, 0);
}

void bsp_pushregister(const void *ident, int size)
{
    bsp_push_reg(ident, size);
}

void bsp_popregister(const void *ident)
{
    bsp_pop_reg(ident);
}

void bsp_put(int pid, const void *src, void *dst, int offset, int nbytes)
{
    MUST_BE_WITHIN("bsp_put");
    ASKED();
    machine_call(CALL_PUT, pid, (long)src, (long)dst, offset, nbytes);
}

void bsp_hpput(int pid, const void *src, void *dst, int offset, int nbytes)
{
    MUST_BE_WITHIN("bsp_hpput");
    ASKED();
    machine_call(CALL_HPPUT, pid, (long)src, (long)dst, offset, nbytes);
}

void bsp_get(int pid, const void *src, int offset, void *dst, int nbytes)
{
    MUST_BE_WITHIN("bsp_get");
    ASKED();
    machine_call(CALL_GET, pid, (long)src, offset, (long)dst, nbytes);
}

void bsp_hpget(int pid, const void *src, int offset, void *dst, int nbytes)
{
    MUST_BE_WITHIN("bsp_hpget");
    ASKED();
    machine_call(CALL_HPGET, pid, (long)src, offset, (long)dst, nbytes);
}

void bsp_set_tagsize(bsp_number tag_nbytes)
{
    int wanted;
    MUST_BE_WITHIN("bsp_set_tagsize");
    wanted = *tag_nbytes.with_sign;
    machine_call_2(CALL_SET_TAGSIZE, (long)tag_nbytes.with_sign, 0);
    next_tag_size = wanted;
}

void bsp_send(int pid, const void *tag, const void *payload, int payload_nbytes)
{
    MUST_BE_WITHIN("bsp_send");
    ASKED();
    machine_call(CALL_SEND, pid, (long)tag, (long)payload, payload_nbytes, 0);
}

void bsp_hpsend(int pid, const void *tag, const void *payload, int payload_nbytes)
{
    bsp_send(pid, tag, payload, payload_nbytes);
}

void bsp_qsize(bsp_number nmessages, bsp_number accum_nbytes)
{
    int messages, bytes;
    int *to_messages = nmessages.with_sign ? nmessages.with_sign : &messages;
    int *to_bytes = accum_nbytes.with_sign ? accum_nbytes.with_sign : &bytes;
    MUST_BE_WITHIN("bsp_qsize");
    machine_call_2(CALL_QSIZE, (long)to_messages, (long)to_bytes);
}

void bsp_get_tag(bsp_number status, void *tag)
{
    MUST_BE_WITHIN("bsp_get_tag");
    machine_call_2(CALL_GET_TAG, (long)status.with_sign, (long)tag);
}

void bsp_move(void *payload, int reception_nbytes)
{
    MUST_BE_WITHIN("bsp_move");
    /* The machine would take it for a number above 2^31, and so for the whole payload. */
    if (reception_nbytes < 0)
        bsp_stop("bsp_move is called with a negative size");
    machine_call_2(CALL_MOVE, (long)payload, reception_nbytes);
}

/* The room of a tag or of a payload, of which neither has a size below 0. */
static size_t rounded(size_t size)
{
    return (size + 7) & ~(size_t)7;
}

/* Begins with the first piece of an earlier superstep, if that is large enough, and frees the others. */
static void begin_room(size_t wanted)
{
    while (room.last != NULL && (room.last->before != NULL || room.last->size < wanted)) {
        struct piece *piece = room.last;
        room.last = piece->before;
        free(piece);
    }
    if (room.last != NULL) {
        room.next = (char *)room.last->bytes;
        room.left = room.last->size;
    }
}

static void add_piece(size_t size)
{
    struct piece *piece = size < 0x7fffff00 ? malloc(sizeof *piece + size) : NULL;
    if (piece == NULL)
        bsp_stop("bsp_hpmove has no memory for the message");
    *piece = (struct piece){room.last, size};
    room.last = piece;
    room.next = (char *)piece->bytes;
    room.left = size;
}

/* Memory at a multiple of 8 for a tag or a payload of this size, where what is left in the queue comes to so many bytes. */
static void *take_room(size_t size, unsigned long long all)
{
    size_t wanted = rounded(size);
    char *place;
    if (room.next == NULL)
        begin_room(wanted);
    if (room.next == NULL || wanted > room.left)
        add_piece(wanted > USUAL_PIECE ? wanted : all < USUAL_PIECE ? (size_t)all : USUAL_PIECE);
    place = room.next;
    room.next += wanted;
    room.left -= wanted;
    return place;
}

int bsp_hpmove(void **tag_ptr, void **payload_ptr)
{
    unsigned messages, bytes;
    int status;
    unsigned long long all;
    MUST_BE_WITHIN("bsp_hpmove");
    machine_call_2(CALL_QSIZE, (long)&messages, (long)&bytes);
    if (messages == 0)
        return -1;
    all = bytes + messages * (unsigned long long)(rounded((size_t)received_tag_size) + 7);
    *tag_ptr = take_room((size_t)received_tag_size, all);
    machine_call_2(CALL_GET_TAG, (long)&status, (long)*tag_ptr);
    *payload_ptr = take_room((size_t)status, all);
    machine_call_2(CALL_MOVE, (long)*payload_ptr, status);
    return status;
}

/* Of its own memory a rank knows what it is now; of another's nobody can tell before the next bsp_sync. */
void bsp_direct_get(int pid, const void *src, int offset, void *dst, int nbytes)
{
    if (pid != bsp_pid())
        bsp_stop_with("bsp_direct_get of rank ", pid, ": memories meet at bsp_sync alone: write bsp_get, and use what it got after the next bsp_sync");
    for (int i = 0; i < nbytes; i++)
        ((char *)dst)[i] = ((const char *)src)[offset + i];
}
