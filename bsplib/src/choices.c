/* With bspcc --portable: makes the choices that BSPlib and C leave open. The linker has that call the functions of this file in the
   place of those that they are named after (--wrap). bsprun writes the choices into the program's image, behind their magic. */
#include "bsp.h"
#include "machine.h"

extern void *memcpy(void *restrict to, const void *restrict from, size_t count);
extern void *memmove(void *to, const void *from, size_t count);
extern void *memset(void *to, int byte, size_t count);
extern int memcmp(const void *left, const void *right, size_t count);

enum order { AS_SENT, REVERSED, SHUFFLED, NUMBERED };
enum unbuffered { AS_BUFFERED, EARLY, LATE, WATCHED };

/* tools/bsptools/prepare/library_choices.py writes these. A choice is made at each point before `until`: a superstep, in it a rank, and of
   that rank which swap of messages, unbuffered call or piece of malloc's memory, each from 0 on. */
struct point {
    unsigned superstep, rank, index;
};
/* Bytes of a put or a get that are left out, so that what another one brings to their place stays there: as if this one had landed first.
   The request is counted among the puts, gets and messages of the rank in the superstep. */
struct cut {
    unsigned superstep, rank, request;
    int from, to;
};
enum { MOST_CUTS = 1024 };
struct bsp_choices {
    char magic[8];
    unsigned memory;     /* the bytes of the memory that are the program's, or 0 for all: what is kept here lies above them */
    unsigned order;      /* of the messages of a superstep */
    unsigned seed;       /* of SHUFFLED; of NUMBERED which one of all orders */
    unsigned unbuffered; /* when bsp_hpput and bsp_hpget read and write */
    unsigned heap;       /* each byte of what malloc gives, or 0 for what is there */
    unsigned stack;      /* the same below the stack's top, at the start and at each bsp_sync */
    unsigned queue;      /* each byte of the messages that bsp_hpmove gave out, once the next bsp_sync is over, or 0 for what is there */
    unsigned is_logged;  /* whether the calls are told in records */
    unsigned is_moved;   /* whether the stack and malloc's memory begin elsewhere on each rank */
    unsigned is_alone;   /* whether ranks above 0 have at bsp_begin what their variables had at the start: those that `cut` has, by addresses */
    unsigned is_summed;  /* whether the variables that `cut` has, by addresses, are told at bsp_end */
    struct point until;
    unsigned cuts; /* how many there are, by their supersteps, ranks, requests and first bytes */
    struct cut cut[MOST_CUTS];
};
struct bsp_choices bsp_choices __attribute__((section(".data"))) = {.magic = "\0bsprun\4"};

/* What is below the stack's top at a bsp_sync and belongs to nobody, as far as it is filled there. */
#define BELOW 2048
/* What a target of bsp_hpget has between the call and bsp_sync. */
#define SPOILT 0xa5

/* Where this rank is: its number, its superstep, in that its points of each kind, and whether it has cuts there. */
static struct {
    unsigned rank, superstep, calls, pieces;
    int has_cuts;
} here;
/* Whether in this superstep puts, gets and sends are made as they are, and not told or counted, and whether bsp_move takes the machine's
   messages as they come. Each is a variable of its own, which takes one instruction to read. */
static int is_plain, is_queue_plain;
unsigned bsp_requested = 0;

typedef unsigned __attribute__((may_alias)) any_word;

/* The room above the program's memory: messages from below, calls from above. All of it is free again after bsp_sync. */
static struct {
    char *start, *low, *high, *end;
} room;

static char *take_room(size_t size, int is_high)
{
    size = (size + 7) & ~(size_t)7;
    if (size > (size_t)(room.high - room.low))
        bsp_stop("there is no room for what bsprun --portable keeps");
    if (is_high)
        return room.high -= size;
    room.low += size;
    return room.low - size;
}

/* How many of the rank's points of a kind are chosen in this superstep, from 0 on. */
static unsigned chosen_here(void)
{
    const struct point *until = &bsp_choices.until;
    if (here.superstep != until->superstep)
        return here.superstep < until->superstep ? (unsigned)-1 : 0;
    return here.rank == until->rank ? until->index : here.rank < until->rank ? (unsigned)-1 : 0;
}

static int is_chosen(unsigned index)
{
    return index < chosen_here();
}

/* Calls as tools/bsptools/portable/call_log.py reads them: the machine's number, or one of those below, and where the call goes back to. What
   a call does not have is 0. Of a message `dst` and `offset` are the last 8 bytes of its payload, which may be a number with a point. */
enum { LOG_DIRECT_GET = 110, LOG_READ = 111, LOG_WRITTEN = 112, LOG_NO_MESSAGE = 115, LOG_INPUT = 118 };
enum { RECORD_CALLS = 'c', RECORD_SUM = 'v' };
struct logged {
    unsigned number, place;
    int pid;
    unsigned src, dst;
    int offset, nbytes;
    unsigned tag;
};

/* A record with a word and more bytes. Calls wait in it until it is full or the superstep ends, so many as `logged` says. */
enum { MOST_RECORDED = 4096, MOST_LOGGED = MOST_RECORDED / sizeof(struct logged) };
static struct {
    char mark[sizeof bsp_settings.mark];
    unsigned size, rank, word;
    union {
        char bytes[MOST_RECORDED];
        struct logged calls[MOST_LOGGED];
    };
} record;
static int logged = 0;

/* Writes it. Unlike those of bsp_record it leaves alone what stands in the buffers of the output, so that a run that tells of itself has the
   output of one that does not, and it is written whether others are wanted or not. */
static void write_record(int kind, unsigned word, int size)
{
    memcpy(record.mark, (const char *)bsp_settings.mark, sizeof record.mark);
    record.mark[sizeof record.mark - 1] = (char)kind;
    record.size = (unsigned)(sizeof record.rank + sizeof record.word) + (unsigned)size;
    record.rank = here.rank;
    record.word = word;
    machine_call_2(CALL_WRITE, (long)&record, (long)(record.bytes - (char *)&record) + size);
}

static void write_log(void)
{
    if (logged > 0)
        write_record(RECORD_CALLS, here.superstep, logged * (int)sizeof *record.calls);
    logged = 0;
}

static __attribute__((noinline)) void log_call(struct logged call)
{
    if (logged == MOST_LOGGED)
        write_log();
    record.calls[logged++] = call;
}
#define LOG(number, pid, src, dst, offset, nbytes, tag)                                                                              \
    do {                                                                                                                             \
        if (bsp_choices.is_logged && bsp_part == BSP_WITHIN)                                                                         \
            log_call((struct logged){number, (unsigned)__builtin_return_address(0), pid, (unsigned)(src), (unsigned)(dst), offset,   \
                                     nbytes, (unsigned)(tag)});                                                                      \
    } while (0)

/* By how many bytes of this rank's stack and heap lie elsewhere: by others than those of the ranks beside it. */
static size_t moved(void)
{
    return 16 * (1 + (size_t)here.rank * 7 % 251);
}

void bsp_log_access(int is_write, const void *place, unsigned start, unsigned size)
{
    if (bsp_choices.is_logged && bsp_part == BSP_WITHIN)
        log_call((struct logged){is_write ? LOG_WRITTEN : LOG_READ, (unsigned)place, 0, start, 0, 0, (int)size, 0});
}

/* The first of the cuts that are not before a request, by halves. */
static const struct cut *cuts_from(unsigned request)
{
    const struct cut *low = bsp_choices.cut, *high = low + bsp_choices.cuts;
    while (low < high) {
        const struct cut *it = low + (high - low) / 2;
        int is_before = it->superstep != here.superstep ? it->superstep < here.superstep
                        : it->rank != here.rank         ? it->rank < here.rank
                                                        : it->request < request;
        if (is_before)
            low = it + 1;
        else
            high = it;
    }
    return low;
}

static int is_here(const struct cut *it)
{
    return it < bsp_choices.cut + bsp_choices.cuts && it->superstep == here.superstep && it->rank == here.rank;
}

static int is_cut(const struct cut *it, unsigned request)
{
    return is_here(it) && it->request == request;
}

/* What is chosen of messages. In a program of bspcc --portable=accesses the sizes of messages are wanted, too. */
#define IS_OTHERWISE (bsp_choices.order != AS_SENT || bsp_choices.queue != 0 || bsp_access != NULL)

/* Finds out what is chosen in the superstep that begins. Cuts of variables are of none. */
static void begin_superstep(void)
{
    here.has_cuts = bsp_choices.cuts > 0 && !bsp_choices.is_alone && !bsp_choices.is_summed && is_here(cuts_from(0));
    is_plain = !here.has_cuts && !bsp_choices.is_logged && bsp_choices.unbuffered == AS_BUFFERED;
    is_queue_plain = is_plain && !IS_OTHERWISE;
}

__attribute__((noreturn)) extern void __real_bsp_start(void);

/* As many bytes as an instruction stores. */
#if defined __riscv_flen && __riscv_flen >= 64
typedef double any_filling;
#else
typedef unsigned any_filling;
#endif
union filling {
    unsigned char bytes[sizeof(any_filling)];
    any_filling whole;
};

/* Fills the stack from the frame of the caller on, downwards to the guard at address 0 or by so many bytes. It calls nothing, and what is
   below its own frame belongs to nobody. */
static __attribute__((noinline)) void fill_stack(size_t most)
{
    static union filling filling;
    char *lowest = (char *)(bsp_null + 4), *top;
    volatile any_filling *it;
    any_filling whole;
    size_t left;
    __asm__ volatile("mv %0, sp" : "=r"(top));
    if (bsp_choices.stack == 0 || top <= lowest)
        return;
    for (left = 0; left < sizeof filling; left++)
        filling.bytes[left] = (unsigned char)bsp_choices.stack;
    whole = filling.whole;
    left = (size_t)(top - lowest) / sizeof whole;
    it = (volatile any_filling *)top;
    for (left = left < most / sizeof whole ? left : most / sizeof whole; left >= 16; left -= 16) {
        it -= 16;
#pragma GCC unroll 16
        for (int i = 0; i < 16; i++)
            it[i] = whole;
    }
    for (; left > 0; left--)
        *--it = whole;
}

/* Goes on with the stack so many bytes lower. */
__attribute__((noreturn)) static void go_lower(size_t size)
{
    volatile char *it = __builtin_alloca(size);
    *it = 0;
    __real_bsp_start();
}

__attribute__((noreturn)) void __wrap_bsp_start(void)
{
    room.start = room.end = (char *)(size_t)bsp_memory_size;
    if (bsp_choices.memory != 0 && bsp_choices.memory < bsp_memory_size) {
        room.start = (char *)(size_t)bsp_choices.memory;
        bsp_memory_size = bsp_choices.memory;
    }
    room.low = room.start;
    room.high = room.end;
    here.rank = (unsigned)bsp_pid();
    begin_superstep();
    fill_stack((size_t)-1);
    if (bsp_choices.is_moved)
        go_lower(moved());
    __real_bsp_start();
}

/* What is before bsp_begin. What is kept for that is no more wanted when the first message comes. */
extern int __real_main(int argc, char **argv);
extern void __real_bsp_begin(int maxprocs);

static char *variables_at_start = NULL;

/* From where on variables are 0 where main begins: those of .bss, if no constructor was there before. The others are kept. */
extern void (*__preinit_array_start[])(void), (*__init_array_end[])(void);
extern char __bss_start[];

static char *first_zero(void)
{
    return &__preinit_array_start[0] == &__init_array_end[0] ? __bss_start : (char *)(size_t)-1;
}

/* What of some variables is kept ends here. */
static char *end_of_kept(const struct cut *it)
{
    char *from = (char *)(size_t)it->from, *to = (char *)(size_t)it->to, *end = first_zero();
    return end < from ? from : end < to ? end : to;
}

/* The first byte that is not 0 from a multiple of 4 on lies in so many bytes from here, or behind all that are looked at so: fewer are left. Most
   of large areas is never used. */
enum { ZEROS = 128 };
static inline const unsigned char *past_zeros(const unsigned char *at, const unsigned char *end)
{
    for (; end - at >= ZEROS; at += ZEROS) {
        const any_word *it = (const any_word *)at;
        unsigned found = 0;
#pragma GCC unroll 32
        for (unsigned i = 0; i < ZEROS / sizeof *it; i++)
            found |= it[i];
        if (found != 0)
            break;
    }
    return at;
}

/* Writes 0 over what is something else, so that the machine has no memory for the rest of large areas. */
static void clear(unsigned char *at, const unsigned char *end)
{
    while (at < end) {
        size_t size = sizeof(any_word) - (size_t)at % sizeof(any_word);
        if (size == sizeof(any_word)) {
            at = (unsigned char *)past_zeros(at, end);
            size = ZEROS;
        }
        size = size < (size_t)(end - at) ? size : (size_t)(end - at);
        memset(at, 0, size);
        at += size;
    }
}

int __wrap_main(int argc, char **argv)
{
    const struct cut *it, *end = bsp_choices.cut + bsp_choices.cuts;
    size_t size = 0;
    char *kept;
    if (bsp_choices.is_alone && here.rank > 0) {
        for (it = bsp_choices.cut; it < end; it++)
            size += (size_t)(end_of_kept(it) - (char *)(size_t)it->from);
        kept = variables_at_start = take_room(size, 0);
        for (it = bsp_choices.cut; it < end; it++) {
            size = (size_t)(end_of_kept(it) - (char *)(size_t)it->from);
            memcpy(kept, (char *)(size_t)it->from, size);
            kept += size;
        }
    }
    return __real_main(argc, argv);
}

void __wrap_bsp_begin(int maxprocs)
{
    const struct cut *it, *end = bsp_choices.cut + bsp_choices.cuts;
    const char *kept = variables_at_start;
    __real_bsp_begin(maxprocs);
    for (it = bsp_choices.cut; kept != NULL && it < end; it++) {
        size_t size = (size_t)(end_of_kept(it) - (char *)(size_t)it->from);
        memcpy((char *)(size_t)it->from, kept, size);
        kept += size;
        clear((unsigned char *)end_of_kept(it), (const unsigned char *)(size_t)it->to);
    }
    room.low = room.start;
}

/* Fresh memory. Each call of a function of this kind is a piece, and tools/bsptools/portable/portability_findings.py counts them so. What
   calloc gives is 0. Others, such as strdup, reallocarray and valloc, call these. */
extern void *__real_malloc(size_t size);
extern void *__real_realloc(void *old, size_t size);
extern void *__real_memalign(size_t alignment, size_t size);
extern void *__real_aligned_alloc(size_t alignment, size_t size);
extern int __real_posix_memalign(void **to, size_t alignment, size_t size);
extern size_t bsp_asked(void *place);

/* Comes before the first memory that is given. */
static void begin_heap(void)
{
    static int has_begun = 0;
    if (bsp_choices.is_moved && !has_begun)
        __real_malloc(moved());
    has_begun = 1;
}

/* A piece, whose first bytes may be those that it had. */
static void *fresh(void *place, size_t kept, size_t size)
{
    int is_filled = bsp_choices.heap != 0 && is_chosen(here.pieces++);
    if (is_filled && place != NULL && size > kept)
        memset((char *)place + kept, (int)bsp_choices.heap, size - kept);
    return place;
}

void *__wrap_malloc(size_t size)
{
    begin_heap();
    return fresh(__real_malloc(size), 0, size);
}

void *__wrap_realloc(void *old, size_t size)
{
    size_t kept = bsp_asked(old);
    begin_heap();
    return fresh(__real_realloc(old, size), kept, size);
}

void *__wrap_memalign(size_t alignment, size_t size)
{
    begin_heap();
    return fresh(__real_memalign(alignment, size), 0, size);
}

void *__wrap_aligned_alloc(size_t alignment, size_t size)
{
    begin_heap();
    return fresh(__real_aligned_alloc(alignment, size), 0, size);
}

int __wrap_posix_memalign(void **to, size_t alignment, size_t size)
{
    int status;
    begin_heap();
    status = __real_posix_memalign(to, alignment, size);
    fresh(status == 0 ? *to : NULL, 0, size);
    return status;
}

/* A C library's own may count on memory that sbrk gave, and leave it as it is. */
void *__wrap_calloc(size_t count, size_t size)
{
    void *place;
    begin_heap();
    place = size > 0 && count > (size_t)-1 / size ? NULL : __real_malloc(count * size);
    return place == NULL ? NULL : memset(place, 0, count * size);
}

/* Puts and gets, of which bytes may be left out. */
typedef void real_put(int pid, const void *src, void *dst, int offset, int nbytes);
typedef void real_get(int pid, const void *src, int offset, void *dst, int nbytes);
extern real_put __real_bsp_put, __real_bsp_hpput;
extern real_get __real_bsp_get, __real_bsp_hpget;
extern void __real_bsp_send(int pid, const void *tag, const void *payload, int payload_nbytes);
extern void __real_bsp_hpsend(int pid, const void *tag, const void *payload, int payload_nbytes);

static void put_parts(real_put *put, unsigned request, int pid, const void *src, void *dst, int offset, int nbytes)
{
    const struct cut *it;
    int from = 0;
    for (it = cuts_from(request); is_cut(it, request); it++) {
        if (it->from > from)
            put(pid, (const char *)src + from, dst, offset + from, it->from - from);
        from = it->to;
    }
    if (from < nbytes)
        put(pid, (const char *)src + from, dst, offset + from, nbytes - from);
}

static void get_parts(real_get *get, unsigned request, int pid, const void *src, int offset, void *dst, int nbytes)
{
    const struct cut *it;
    int from = 0;
    for (it = cuts_from(request); is_cut(it, request); it++) {
        if (it->from > from)
            get(pid, src, offset + from, (char *)dst + from, it->from - from);
        from = it->to;
    }
    if (from < nbytes)
        get(pid, src, offset + from, (char *)dst + from, nbytes - from);
}

/* Nothing follows the call that is made as it is, so that GCC goes on there: then the library sees where the program has made it. */
void __wrap_bsp_put(int pid, const void *src, void *dst, int offset, int nbytes)
{
    unsigned request;
    if (is_plain) {
        __real_bsp_put(pid, src, dst, offset, nbytes);
        return;
    }
    request = bsp_requested++;
    LOG(CALL_PUT, pid, src, dst, offset, nbytes, 0);
    if (here.has_cuts && is_cut(cuts_from(request), request)) {
        put_parts(__real_bsp_put, request, pid, src, dst, offset, nbytes);
        return;
    }
    __real_bsp_put(pid, src, dst, offset, nbytes);
}

void __wrap_bsp_get(int pid, const void *src, int offset, void *dst, int nbytes)
{
    unsigned request;
    if (is_plain) {
        __real_bsp_get(pid, src, offset, dst, nbytes);
        return;
    }
    request = bsp_requested++;
    LOG(CALL_GET, pid, src, dst, offset, nbytes, 0);
    if (here.has_cuts && is_cut(cuts_from(request), request)) {
        get_parts(__real_bsp_get, request, pid, src, offset, dst, nbytes);
        return;
    }
    __real_bsp_get(pid, src, offset, dst, nbytes);
}

/* Four bytes, which mostly lie at an address that is a multiple of 4. */
static inline unsigned word_at(const void *at)
{
    unsigned word;
    if ((size_t)at % sizeof(any_word) == 0)
        return *(const any_word *)at;
    memcpy(&word, at, sizeof word);
    return word;
}

/* What is told of a message: also its last 8 bytes, or those that there are. */
static inline __attribute__((always_inline)) struct logged sent(const void *place, int pid, const void *tag, const void *payload, int nbytes)
{
    const char *end = (const char *)payload + nbytes;
    struct logged call = {CALL_SEND, (unsigned)place, pid, (unsigned)payload, 0, 0, nbytes, (unsigned)tag};
    if (nbytes >= 8) {
        call.dst = word_at(end - 8);
        call.offset = (int)word_at(end - 4);
    } else if (nbytes == 4) {
        call.dst = word_at(payload);
    }
    return call;
}

typedef void real_send(int pid, const void *tag, const void *payload, int payload_nbytes);

static __attribute__((noinline)) void log_and_send(int pid, const void *tag, const void *payload, int nbytes, const void *place, real_send *send)
{
    bsp_requested++;
    if (bsp_choices.is_logged && bsp_part == BSP_WITHIN)
        log_call(sent(place, pid, tag, payload, nbytes));
    send(pid, tag, payload, nbytes);
}

/* Where calls are told, most of a run may be messages. So one for which there is room is written to its place at once. */
static inline __attribute__((always_inline)) void send_as(real_send *send, int pid, const void *tag, const void *payload, int nbytes, const void *place)
{
    if (is_plain) {
        send(pid, tag, payload, nbytes);
    } else if (!bsp_choices.is_logged || bsp_part != BSP_WITHIN || logged == MOST_LOGGED) {
        log_and_send(pid, tag, payload, nbytes, place, send);
    } else {
        bsp_requested++;
        record.calls[logged++] = sent(place, pid, tag, payload, nbytes);
        send(pid, tag, payload, nbytes);
    }
}

void __wrap_bsp_send(int pid, const void *tag, const void *payload, int payload_nbytes)
{
    send_as(__real_bsp_send, pid, tag, payload, payload_nbytes, __builtin_return_address(0));
}

void __wrap_bsp_hpsend(int pid, const void *tag, const void *payload, int payload_nbytes)
{
    send_as(__real_bsp_hpsend, pid, tag, payload, payload_nbytes, __builtin_return_address(0));
}

/* What else is told. */
extern void __real_bsp_push_reg(const void *ident, int size);
extern void __real_bsp_pop_reg(const void *ident);
extern void __real_bsp_direct_get(int pid, const void *src, int offset, void *dst, int nbytes);

void __wrap_bsp_push_reg(const void *ident, int size)
{
    LOG(CALL_PUSH_REG, 0, ident, 0, 0, size, 0);
    __real_bsp_push_reg(ident, size);
}

void __wrap_bsp_pop_reg(const void *ident)
{
    LOG(CALL_POP_REG, 0, ident, 0, 0, 0, 0);
    __real_bsp_pop_reg(ident);
}

void __wrap_bsp_pushregister(const void *ident, int size)
{
    LOG(CALL_PUSH_REG, 0, ident, 0, 0, size, 0);
    __real_bsp_push_reg(ident, size);
}

void __wrap_bsp_popregister(const void *ident)
{
    LOG(CALL_POP_REG, 0, ident, 0, 0, 0, 0);
    __real_bsp_pop_reg(ident);
}

void __wrap_bsp_direct_get(int pid, const void *src, int offset, void *dst, int nbytes)
{
    LOG(LOG_DIRECT_GET, pid, src, dst, offset, nbytes, 0);
    __real_bsp_direct_get(pid, src, offset, dst, nbytes);
}

/* Unbuffered calls. */
struct call {
    struct call *next;
    int pid;
    const void *src;
    void *dst;
    int offset, nbytes;
    unsigned index;
    int is_get;
    char *kept; /* of a put its source at the call, of a get its target before bsp_sync */
};
static struct call *last_call = NULL;

static void keep_call(int pid, const void *src, void *dst, int offset, int nbytes, unsigned index, int is_get)
{
    struct call *it = (struct call *)take_room(sizeof *it, 1);
    char *kept = take_room((size_t)nbytes, 1);
    *it = (struct call){last_call, pid, src, dst, offset, nbytes, index, is_get, kept};
    if (!is_get)
        memcpy(kept, src, (size_t)nbytes);
    last_call = it;
}

/* Whether a call is looked at: the machine refuses what is not. */
static int is_kept(int nbytes, unsigned kinds)
{
    return bsp_part == BSP_WITHIN && nbytes > 0 && (kinds >> bsp_choices.unbuffered & 1) != 0;
}

void __wrap_bsp_hpput(int pid, const void *src, void *dst, int offset, int nbytes)
{
    unsigned index, request;
    if (is_plain) {
        __real_bsp_hpput(pid, src, dst, offset, nbytes);
        return;
    }
    index = here.calls++, request = bsp_requested++;
    LOG(CALL_HPPUT, pid, src, dst, offset, nbytes, 0);
    if (here.has_cuts && is_cut(cuts_from(request), request)) {
        put_parts(__real_bsp_hpput, request, pid, src, dst, offset, nbytes);
        return;
    }
    if (is_kept(nbytes, 1 << LATE | 1 << WATCHED) && is_chosen(index)) {
        keep_call(pid, src, dst, offset, nbytes, index, 0);
        if (bsp_choices.unbuffered == LATE)
            return;
    }
    __real_bsp_hpput(pid, src, dst, offset, nbytes);
    if (is_kept(nbytes, 1 << EARLY) && pid == (int)here.rank && is_chosen(index))
        memmove((char *)dst + offset, src, (size_t)nbytes);
}

void __wrap_bsp_hpget(int pid, const void *src, int offset, void *dst, int nbytes)
{
    unsigned index, request;
    if (is_plain) {
        __real_bsp_hpget(pid, src, offset, dst, nbytes);
        return;
    }
    index = here.calls++, request = bsp_requested++;
    LOG(CALL_HPGET, pid, src, dst, offset, nbytes, 0);
    if (here.has_cuts && is_cut(cuts_from(request), request)) {
        get_parts(__real_bsp_hpget, request, pid, src, offset, dst, nbytes);
        return;
    }
    __real_bsp_hpget(pid, src, offset, dst, nbytes);
    /* A rank's own bytes may be source and target of one call. */
    if (is_kept(nbytes, 1 << EARLY | 1 << LATE) && pid != (int)here.rank && is_chosen(index)) {
        memset(dst, SPOILT, (size_t)nbytes);
        if (bsp_choices.unbuffered == EARLY)
            keep_call(pid, src, dst, offset, nbytes, index, 1);
    }
}

/* The calls in their order: the list has the last one first. */
static struct call *first_call(void)
{
    struct call *first = NULL;
    while (last_call != NULL) {
        struct call *it = last_call;
        last_call = it->next;
        it->next = first;
        first = it;
    }
    return first;
}

static void end_call(struct call *it)
{
    if (it->is_get)
        memcpy(it->kept, it->dst, (size_t)it->nbytes);
    else if (bsp_choices.unbuffered == LATE)
        __real_bsp_hpput(it->pid, it->src, it->dst, it->offset, it->nbytes);
    else if (memcmp(it->kept, it->src, (size_t)it->nbytes) != 0)
        bsp_stop_with("the source of an unbuffered call is other at bsp_sync: call ", (int)it->index, "");
}

/* What the program wrote into the target of an early get, it wrote over what was got. */
static void keep_written(const struct call *it)
{
    int i;
    for (i = 0; it->is_get && i < it->nbytes; i++)
        if ((unsigned char)it->kept[i] != SPOILT)
            ((char *)it->dst)[i] = it->kept[i];
}

/* What the library writes for the program, in one of bspcc --portable=accesses. */
#define WRITES(to, count, place)                                                                                                 \
    do {                                                                                                                         \
        if (bsp_access != NULL)                                                                                                  \
            bsp_access(to, (size_t)(count), 1, place);                                                                           \
    } while (0)

/* Messages. If they may come in another order, or are to be spoilt, they are taken out of the machine's queue when the program first looks at
   it. The tag lies before the payload. If no message is left, or none was taken out, `next` is `end`. */
struct message {
    char *payload;
    int size;
};
static struct {
    struct message *next, *end;
    int is_kept, bytes;
    int received_tag, tag, next_tag; /* the sizes of tags in the queue, in this superstep and in the next one */
} queue;
/* If each message is one word and has no tag, as most are that have a number, these are all that is kept: `queue` has none then. */
static any_word *next_word = NULL, *end_of_words = NULL;
/* How many messages are left in the machine's queue, where calls are told and that is known, and else -1. */
static int left_in_machine = -1;

/* How many bytes before its payload a message has its tag. */
static size_t tag_room(void)
{
    return ((size_t)queue.received_tag + 7) & ~(size_t)7;
}

extern void __real_bsp_set_tagsize(int *tag_nbytes);
extern void __real_bsp_qsize(int *nmessages, int *accum_nbytes);
extern void __real_bsp_get_tag(int *status, void *tag);
extern void __real_bsp_move(void *payload, int reception_nbytes);
extern int __real_bsp_hpmove(void **tag_ptr, void **payload_ptr);

void __wrap_bsp_set_tagsize(int *tag_nbytes)
{
    int wanted = *tag_nbytes;
    LOG(CALL_SET_TAGSIZE, 0, 0, 0, 0, wanted, 0);
    __real_bsp_set_tagsize(tag_nbytes);
    queue.next_tag = wanted;
}

/* Draws the swaps of an order: which message changes its place with message `i` of so many. tools/bsptools/prepare/library_choices.py makes
   the same swaps. */
struct draw {
    unsigned random, number;
};

static inline __attribute__((always_inline)) int drawn(struct draw *draw, unsigned order, int i, int count)
{
    unsigned left = (unsigned)(count - i), number = draw->number;
    if (order == SHUFFLED) {
        draw->random = draw->random * 1664525u + 1013904223u;
        return i + (int)((draw->random >> 8) % left);
    }
    if (order == NUMBERED) {
        draw->number = number / left;
        return i + (int)(number % left);
    }
    return i < count / 2 ? count - 1 - i : i;
}

/* How many swaps of so many messages are chosen. */
static int chosen_swaps(int count)
{
    unsigned chosen = chosen_here();
    return count < 2 ? 0 : chosen < (unsigned)(count - 1) ? (int)chosen : count - 1;
}

static void swap_messages(struct message *all, int count, struct draw draw)
{
    int i, swaps = chosen_swaps(count);
    for (i = 0; i < swaps; i++) {
        int other = drawn(&draw, bsp_choices.order, i, count);
        struct message message = all[i];
        all[i] = all[other];
        all[other] = message;
    }
}

/* In line, so that there is a loop for each order. */
static inline __attribute__((always_inline)) void swap_words_in(unsigned order, any_word *all, int count, struct draw draw)
{
    int i, swaps = chosen_swaps(count);
    for (i = 0; i < swaps; i++) {
        int other = drawn(&draw, order, i, count);
        any_word word = all[i];
        all[i] = all[other];
        all[other] = word;
    }
}

static void swap_words(any_word *all, int count, struct draw draw)
{
    if (bsp_choices.order == SHUFFLED)
        swap_words_in(SHUFFLED, all, count, draw);
    else if (bsp_choices.order == NUMBERED)
        swap_words_in(NUMBERED, all, count, draw);
    else
        swap_words_in(REVERSED, all, count, draw);
}

/* Takes messages out of the machine's queue as long as they are one word each, and answers how many were. The calls are made here, since of
   many messages most of a run would be these. */
static int keep_words(any_word *all, int count)
{
    any_word *it;
    int size;
    for (it = all; it < all + count; it++) {
        machine_call_2(CALL_GET_TAG, (long)&size, (long)it);
        if (size != (int)sizeof *it)
            break;
        machine_call_2(CALL_MOVE, (long)it, sizeof *it);
    }
    return (int)(it - all);
}

/* Takes what is left in the machine's queue. */
static __attribute__((noinline)) void keep_queue(void)
{
    int messages, bytes, words = 0, i;
    size_t tag_size = tag_room();
    struct draw draw = {bsp_choices.seed + here.superstep * 2654435761u + here.rank * 40503u, bsp_choices.seed};
    any_word *first_word = NULL;
    char *place;
    machine_call_2(CALL_QSIZE, (long)&messages, (long)&bytes);
    queue.is_kept = 1;
    queue.bytes = 0;
    is_queue_plain = 0;
    left_in_machine = -1;
    if (queue.received_tag == 0 && bsp_access == NULL && (size_t)bytes == (size_t)messages * sizeof *first_word) {
        first_word = (any_word *)take_room((size_t)bytes, 0);
        words = keep_words(first_word, messages);
        if (words == messages) {
            next_word = first_word;
            end_of_words = first_word + words;
            if (bsp_choices.order != AS_SENT)
                swap_words(first_word, words, draw);
            return;
        }
    }
    queue.next = (struct message *)take_room((size_t)messages * sizeof *queue.next, 0);
    queue.end = queue.next + messages;
    for (i = 0; i < words; i++)
        queue.next[i] = (struct message){(char *)(first_word + i), sizeof *first_word};
    if ((size_t)(room.high - room.low) / (tag_size + 7 + 1) < (size_t)messages)
        take_room((size_t)-8, 0);
    /* As much as they can take, in steps of 8 bytes each. */
    place = take_room((size_t)messages * (tag_size + 7) + (size_t)bytes, 0);
    for (; i < messages; i++) {
        char *payload = place + tag_size;
        int size;
        machine_call_2(CALL_GET_TAG, (long)&size, (long)place);
        machine_call_2(CALL_MOVE, (long)payload, size);
        queue.next[i] = (struct message){payload, size};
        place = payload + (((size_t)size + 7) & ~(size_t)7);
    }
    room.low = place;
    queue.bytes = bytes;
    if (bsp_choices.order != AS_SENT)
        swap_messages(queue.next, messages, draw);
}

/* Whether the queue is kept here. Outside of bsp_begin and bsp_end the functions themselves stop the program. */
static inline int keeps_queue(int is_wanted)
{
    if (!queue.is_kept && is_wanted && bsp_part == BSP_WITHIN && bsp_choices.memory != 0)
        keep_queue();
    return queue.is_kept;
}
void __wrap_bsp_qsize(int *nmessages, int *accum_nbytes)
{
    if (!keeps_queue(IS_OTHERWISE)) {
        __real_bsp_qsize(nmessages, accum_nbytes);
        return;
    }
    if (nmessages != NULL)
        *nmessages = (int)(queue.end - queue.next) + (int)(end_of_words - next_word);
    if (accum_nbytes != NULL)
        *accum_nbytes = queue.bytes + (int)((const char *)end_of_words - (const char *)next_word);
}

/* Whether a message is left of those that are kept, and the first one, which may be taken. */
static int has_message(void)
{
    return next_word != end_of_words || queue.next != queue.end;
}

static struct message first_message(int is_taken)
{
    struct message it;
    if (next_word != end_of_words) {
        it = (struct message){(char *)next_word, sizeof *next_word};
        next_word += is_taken;
    } else {
        it = *queue.next;
        queue.next += is_taken;
        queue.bytes -= is_taken ? it.size : 0;
    }
    return it;
}

void __wrap_bsp_get_tag(int *status, void *tag)
{
    if (!keeps_queue(IS_OTHERWISE)) {
        __real_bsp_get_tag(status, tag);
        return;
    }
    if (!has_message()) {
        *status = -1;
        return;
    }
    *status = first_message(0).size;
    WRITES(tag, queue.received_tag, __builtin_return_address(0));
    memcpy(tag, first_message(0).payload - tag_room(), (size_t)queue.received_tag);
}

/* Tells of a message that is taken where none is left in the machine's queue. */
static __attribute__((noinline)) void log_move(const void *place)
{
    int bytes;
    if (!bsp_choices.is_logged || bsp_part != BSP_WITHIN)
        return;
    if (left_in_machine < 0)
        machine_call_2(CALL_QSIZE, (long)&left_in_machine, (long)&bytes);
    if (left_in_machine == 0)
        log_call((struct logged){.number = LOG_NO_MESSAGE, .place = (unsigned)place});
    else
        left_in_machine--;
}

static __attribute__((noinline)) void move_kept(void *payload, int reception_nbytes, const void *place)
{
    struct message it = first_message(1);
    int count = it.size < reception_nbytes ? it.size : reception_nbytes;
    WRITES(payload, count, place);
    memcpy(payload, it.payload, (size_t)count);
}

static __attribute__((noinline)) void move_any(void *payload, int reception_nbytes, const void *place)
{
    if (reception_nbytes < 0 || !keeps_queue(IS_OTHERWISE)) {
        log_move(place);
        __real_bsp_move(payload, reception_nbytes);
    } else if (has_message()) {
        move_kept(payload, reception_nbytes, place);
    } else if (bsp_choices.is_logged && bsp_part == BSP_WITHIN) {
        log_call((struct logged){.number = LOG_NO_MESSAGE, .place = (unsigned)place});
    }
}

void __wrap_bsp_move(void *payload, int reception_nbytes)
{
    if (next_word != end_of_words && reception_nbytes >= (int)sizeof *next_word && (size_t)payload % sizeof *next_word == 0) {
        *(any_word *)payload = *next_word++;
    } else if (is_queue_plain) {
        __real_bsp_move(payload, reception_nbytes);
    } else if (left_in_machine > 0) {
        left_in_machine--;
        __real_bsp_move(payload, reception_nbytes);
    } else {
        move_any(payload, reception_nbytes, __builtin_return_address(0));
    }
}

/* In each run the memory of malloc is without these messages, so that its pieces have the same numbers. */
int __wrap_bsp_hpmove(void **tag_ptr, void **payload_ptr)
{
    struct message it;
    if (!keeps_queue(1)) {
        left_in_machine = -1;
        return __real_bsp_hpmove(tag_ptr, payload_ptr);
    }
    if (!has_message())
        return -1;
    it = first_message(1);
    *tag_ptr = it.payload - tag_room();
    *payload_ptr = it.payload;
    return it.size;
}

extern void __real_bsp_sync(void);
extern int __real_bsp_end(void);

/* That this rank has read something of the input, once. */
static void log_input(void)
{
    static int is_told = 0;
    if (bsp_choices.is_logged && bsp_has_input && !is_told) {
        is_told = 1;
        log_call((struct logged){.number = LOG_INPUT});
    }
}

/* What is told of the superstep that ends. */
static void end_log(void)
{
    if (bsp_part != BSP_WITHIN)
        return;
    if (bsp_end_accesses != NULL)
        bsp_end_accesses();
    log_input();
    write_log();
}

/* What is told of the variables: a sum, how many blocks have something else than 0, and these, each as its address, its size and its bytes up
   to a whole word. If they are too many, ALL stands for their number, and none of them is told. */
#define ALL ((unsigned)-1)
enum { BLOCK = 64, MOST_OF_ALL_RANKS = 1 << 20 };
static struct {
    unsigned sum, count;
    any_word *next, *end;
} variables;

static void add_word(unsigned word)
{
    variables.sum = (variables.sum ^ word ^ word >> 15) * 16777619u;
    if (variables.next < variables.end)
        *variables.next++ = word;
}

static void add_block(const unsigned char *at, unsigned size)
{
    unsigned i, part, word;
    if (variables.end - variables.next < (long)(2 + (size + 3) / 4)) {
        variables.count = ALL;
        variables.end = variables.next;
    }
    variables.count += variables.count != ALL;
    add_word((unsigned)(size_t)at);
    add_word(size);
    for (i = 0; i + 4 <= size && (size_t)at % 4 == 0; i += 4)
        add_word(*(const any_word *)(at + i));
    for (; i < size; i += 4) {
        for (word = 0, part = 0; part < 4 && i + part < size; part++)
            word |= (unsigned)at[i + part] << 8 * part;
        add_word(word);
    }
}

static int is_zero(const unsigned char *at, unsigned size)
{
    for (; size >= sizeof(any_word) && (size_t)at % sizeof(any_word) == 0 && *(const any_word *)at == 0; at += sizeof(any_word))
        size -= (unsigned)sizeof(any_word);
    while (size > 0 && *at == 0)
        at++, size--;
    return size == 0;
}

/* Tells of the variables, so that it is seen whether two runs end with the same ones, and mostly in what they differ. */
static void tell_variables(void)
{
    const struct cut *it, *last = bsp_choices.cut + bsp_choices.cuts;
    unsigned room_of_rank = (unsigned)MOST_OF_ALL_RANKS / (unsigned)bsp_nprocs();
    any_word *first = (any_word *)record.bytes;
    variables.sum = 2166136261u;
    variables.next = first + 1;
    variables.end = first + (room_of_rank < MOST_RECORDED ? room_of_rank : MOST_RECORDED) / sizeof *first;
    for (it = bsp_choices.cut; it < last; it++) {
        const unsigned char *at = (const unsigned char *)(size_t)it->from, *end = (const unsigned char *)(size_t)it->to;
        for (;;) {
            unsigned size = BLOCK - (unsigned)((size_t)at % BLOCK);
            if (size == BLOCK)
                at = past_zeros(at, end);
            if (at >= end)
                break;
            size = size < (unsigned)(end - at) ? size : (unsigned)(end - at);
            if (!is_zero(at, size))
                add_block(at, size);
            at += size;
        }
    }
    *first = variables.count;
    write_record(RECORD_SUM, variables.sum, (int)((char *)(variables.count == ALL ? first + 1 : variables.next) - record.bytes));
}

int __wrap_bsp_end(void)
{
    end_log();
    if (bsp_choices.is_summed && bsp_part == BSP_WITHIN)
        tell_variables();
    return __real_bsp_end();
}

void __wrap_bsp_sync(void)
{
    struct call *first = bsp_part == BSP_WITHIN ? first_call() : NULL, *it;
    end_log();
    for (it = first; it != NULL; it = it->next)
        end_call(it);
    __real_bsp_sync();
    for (it = first; it != NULL; it = it->next)
        keep_written(it);
    if (bsp_choices.queue != 0 && queue.is_kept && is_chosen(0))
        memset(room.start, (int)bsp_choices.queue, (size_t)(room.low - room.start));
    room.low = room.start;
    room.high = room.end;
    here.superstep++;
    here.calls = here.pieces = bsp_requested = 0;
    begin_superstep();
    queue.is_kept = 0;
    queue.next = queue.end;
    next_word = end_of_words;
    left_in_machine = -1;
    queue.received_tag = queue.tag;
    queue.tag = queue.next_tag;
    /* GCC goes on there with what belongs to the caller alone. */
    fill_stack(BELOW);
}
