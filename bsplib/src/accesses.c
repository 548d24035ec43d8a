/* With bspcc --portable=accesses: notes the program's own accesses to bytes that an unbuffered call also has. GCC has the program call
   the functions of this file before each load and store (-fsanitize=thread, of which it has no library for this machine), and the linker has
   it call those that copy and fill. bsprun writes the bytes of unbuffered calls into the program's image, behind their magic. */
#include "bsp.h"
#include "machine.h"

/* tools/bsptools/portable/exposed_accesses.py writes these, by their supersteps, ranks, kinds and first bytes. No two of a kind have a byte
   in common. They count once the rank has made so many puts, gets and messages in the superstep. */
enum kind { SOURCES, TARGETS, KINDS };
struct range {
    unsigned superstep, rank, kind, requests, start, end;
};
enum { MOST_RANGES = 1 << 14 };
struct bsp_ranges {
    char magic[8];
    unsigned count;
    struct range all[MOST_RANGES];
};
struct bsp_ranges bsp_ranges __attribute__((section(".data"))) = {.magic = "\0bsprun\6"};

/* Those of this rank in this superstep, and between which addresses they are. */
static struct {
    int superstep;
    const struct range *first[KINDS + 1];
    unsigned low, high;
} now = {.superstep = -1};

/* Where this rank was told of in this superstep, as far as there is room: each place once. */
enum { MOST_TOLD = 32 };
static struct {
    unsigned count;
    const void *place[MOST_TOLD];
} told;

/* A write to a source that is about to be made: it counts if it changes something. */
static struct {
    unsigned start, size, sum;
    const void *place;
} pending;

/* Whether a function of this file is being executed: what it calls may call it. */
static int is_inside = 0;

/* The first range that is not before these words. */
static const struct range *range_from(unsigned superstep, unsigned rank, unsigned kind)
{
    const struct range *low = bsp_ranges.all, *high = low + bsp_ranges.count;
    while (low < high) {
        const struct range *it = low + (high - low) / 2;
        int is_before = it->superstep != superstep ? it->superstep < superstep : it->rank != rank ? it->rank < rank : it->kind < kind;
        if (is_before)
            low = it + 1;
        else
            high = it;
    }
    return low;
}

static void begin_superstep(void)
{
    const struct range *it;
    unsigned kind, rank = (unsigned)bsp_pid();
    for (kind = 0; kind <= KINDS; kind++)
        now.first[kind] = range_from((unsigned)bsp_superstep, rank, kind);
    now.low = (unsigned)-1;
    now.high = 0;
    for (it = now.first[0]; it < now.first[KINDS]; it++) {
        now.low = it->start < now.low ? it->start : now.low;
        now.high = it->end > now.high ? it->end : now.high;
    }
    now.superstep = bsp_superstep;
    told.count = 0;
}

static unsigned sum_of(unsigned start, unsigned size)
{
    const volatile unsigned char *it = (const volatile unsigned char *)(size_t)start;
    unsigned sum = 2166136261u;
    while (size-- > 0)
        sum = (sum ^ *it++) * 16777619u;
    return sum;
}

static void tell(int is_write, const void *place, unsigned start, unsigned size)
{
    unsigned i;
    for (i = 0; i < told.count; i++)
        if (told.place[i] == place)
            return;
    if (told.count == MOST_TOLD)
        return;
    told.place[told.count++] = place;
    bsp_log_access(is_write, place, start, size);
}

static void end_pending(void)
{
    if (pending.size > 0 && sum_of(pending.start, pending.size) != pending.sum)
        tell(1, pending.place, pending.start, pending.size);
    pending.size = 0;
}

/* The first range of a kind that has one of some bytes and counts, or NULL. */
static const struct range *range_with(enum kind kind, unsigned start, unsigned end)
{
    const struct range *low = now.first[kind], *high = now.first[kind + 1], *last = high;
    while (low < high) {
        const struct range *it = low + (high - low) / 2;
        if (it->end <= start)
            low = it + 1;
        else
            high = it;
    }
    while (low < last && low->start < end && low->requests > bsp_requested)
        low++;
    return low < last && low->start < end ? low : NULL;
}

void bsp_access(const void *address, size_t size, int is_write, const void *place)
{
    unsigned start = (unsigned)(size_t)address, end = start + (unsigned)size;
    const struct range *it;
    if (is_inside || bsp_part != BSP_WITHIN)
        return;
    is_inside = 1;
    end_pending();
    if (now.superstep != bsp_superstep)
        begin_superstep();
    if (start < now.high && end > now.low) {
        if ((it = range_with(TARGETS, start, end)) != NULL) {
            start = start > it->start ? start : it->start;
            tell(is_write, place, start, (end < it->end ? end : it->end) - start);
        } else if (is_write && (it = range_with(SOURCES, start, end)) != NULL) {
            pending.start = start > it->start ? start : it->start;
            pending.size = (end < it->end ? end : it->end) - pending.start;
            pending.sum = sum_of(pending.start, pending.size);
            pending.place = place;
        }
    }
    is_inside = 0;
}

void bsp_end_accesses(void)
{
    is_inside = 1;
    end_pending();
    is_inside = 0;
}

/* What GCC has a program call. */
#define ACCESS(address, size, is_write) bsp_access(address, size, is_write, __builtin_return_address(0))
#define READS_AND_WRITES(size)                                                                                                   \
    void __tsan_read##size(const void *address) { ACCESS(address, size, 0); }                                                    \
    void __tsan_write##size(const void *address) { ACCESS(address, size, 1); }                                                   \
    void __tsan_unaligned_read##size(const void *address) { ACCESS(address, size, 0); }                                          \
    void __tsan_unaligned_write##size(const void *address) { ACCESS(address, size, 1); }
READS_AND_WRITES(1)
READS_AND_WRITES(2)
READS_AND_WRITES(4)
READS_AND_WRITES(8)
READS_AND_WRITES(16)

void __tsan_read_range(const void *address, size_t size) { ACCESS(address, size, 0); }
void __tsan_write_range(const void *address, size_t size) { ACCESS(address, size, 1); }
void __tsan_vptr_update(const void *address, const void *value) { (void)address, (void)value; }
void __tsan_init(void) {}
void __tsan_func_entry(const void *place) { (void)place; }
void __tsan_func_exit(void) {}

/* What copies and fills in a C library. */
extern void *__real_memcpy(void *restrict to, const void *restrict from, size_t count);
extern void *__real_memmove(void *to, const void *from, size_t count);
extern void *__real_memset(void *to, int byte, size_t count);

void *__wrap_memcpy(void *restrict to, const void *restrict from, size_t count)
{
    ACCESS(from, count, 0);
    ACCESS(to, count, 1);
    return __real_memcpy(to, from, count);
}

void *__wrap_memmove(void *to, const void *from, size_t count)
{
    ACCESS(from, count, 0);
    ACCESS(to, count, 1);
    return __real_memmove(to, from, count);
}

void *__wrap_memset(void *to, int byte, size_t count)
{
    ACCESS(to, count, 1);
    return __real_memset(to, byte, count);
}
