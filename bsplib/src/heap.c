/* malloc, free and their kin, instead of picolibc's. A request that is refused is told to bsprun, and a word stands behind each block that
   nobody has reason to write, which free looks at, and each bsp_sync where bsprun --warn asks for it. */
#include <errno.h>
#include <malloc.h>
#include <stdint.h>
#include <stdlib.h>
#include <string.h>
#include <unistd.h>

#include "machine.h"

/* picolibc's, which stdlib.h leaves to programs. */
char *utoa(unsigned number, char *to, int base);

/* Blocks stand one behind another, each at 8 behind a multiple of 16, so that what is given is at multiples of 16. */
enum { UNIT = 16, HEAD = 8, LEAST = 32, BEHIND = sizeof(unsigned), PAGE = 4096, MOST = 0x7fffff00 };
/* In the low bits of a size. */
enum { IS_USED = 1, IS_BEHIND_FREE = 2, FLAGS = UNIT - 1 };
/* The word behind each block, and what stands for the bytes that were asked for of a block that nobody has. */
#define WORD_BEHIND 0xb1e7c9d3u
enum { IS_FREE = -1 };

struct block {
    unsigned size; /* with its head, and with flags */
    unsigned asked;
    struct block *next, *before; /* of a free block, whose last word is its size */
};

/* Free blocks by their size: one list for each size below 512, and one for each power of 2 from there on. */
enum { SMALL = 512 / UNIT, LISTS = SMALL + 23 };
static struct block *lists[LISTS];
static int free_count = 0;

/* The heap: from the first block on up to the end, and in it the top, behind which nothing was given yet. */
static char *first = NULL, *top = NULL, *end = NULL;
/* The bytes of blocks that are free. */
static size_t free_bytes = 0;

static size_t size_of(const struct block *block)
{
    return block->size & ~(unsigned)FLAGS;
}

static struct block *at(void *place, size_t offset)
{
    return (struct block *)((char *)place + offset);
}

static void *given(struct block *block)
{
    return (char *)block + HEAD;
}

static int list_of(size_t size)
{
    int list = SMALL;
    if (size < SMALL * UNIT)
        return (int)(size / UNIT);
    for (size /= SMALL * UNIT * 2; size > 0; size /= 2)
        list++;
    return list;
}

static void add_free(struct block *block, size_t size)
{
    struct block **list = &lists[list_of(size)];
    block->size = (unsigned)size | (block->size & IS_BEHIND_FREE);
    block->asked = (unsigned)IS_FREE;
    block->before = NULL;
    block->next = *list;
    if (*list != NULL)
        (*list)->before = block;
    *list = block;
    ((unsigned *)at(block, size))[-1] = (unsigned)size;
    if ((char *)block + size < top)
        at(block, size)->size |= IS_BEHIND_FREE;
    free_count++;
    free_bytes += size;
}

static void take_free(struct block *block)
{
    if (block->next != NULL)
        block->next->before = block->before;
    if (block->before != NULL)
        block->before->next = block->next;
    else
        lists[list_of(size_of(block))] = block->next;
    free_count--;
    free_bytes -= size_of(block);
    if ((char *)block + size_of(block) < top)
        at(block, size_of(block))->size &= ~(unsigned)IS_BEHIND_FREE;
}

/* Marks a block as used, with a word behind what is asked for. */
static void use(struct block *block, size_t size, size_t asked)
{
    const unsigned word = WORD_BEHIND;
    block->size = (unsigned)size | (block->size & IS_BEHIND_FREE) | IS_USED;
    block->asked = (unsigned)asked;
    memcpy((char *)given(block) + asked, &word, sizeof word);
}

static int is_whole(struct block *block)
{
    unsigned word;
    if (block->asked > size_of(block) - HEAD - BEHIND)
        return 0;
    memcpy(&word, (char *)given(block) + block->asked, sizeof word);
    return word == WORD_BEHIND;
}

/* Says of a block what was overwritten: the word behind it, or what stands in front of it. */
__attribute__((noreturn, cold)) static void stop_for_block(const char *function, struct block *block)
{
    static char text[160];
    char *to = stpcpy(text, function);
    int has_size = block->asked <= size_of(block) - HEAD - BEHIND;
    if (has_size) {
        utoa(block->asked, to, 10);
        strcat(to, " bytes of malloc at 0x");
    } else
        strcpy(to, "memory of malloc at 0x");
    utoa((unsigned)(uintptr_t)given(block), to + strlen(to), 16);
    strcat(to, has_size ? " were written past their end" : " was written before its beginning, or past the end of the block there");
    bsp_stop(text);
}

/* Whether all blocks are looked at before one is given or given back, as in the tests of the library. */
#ifndef BSP_CHECKS_HEAP
#define BSP_CHECKS_HEAP 0
#endif

/* Looks at all blocks in their order, as bsp_sync does where bsprun --warn asks for it. */
static void look(void)
{
    for (char *place = first; place < top; place += size_of((struct block *)place)) {
        struct block *block = (struct block *)place;
        if (size_of(block) < UNIT || size_of(block) > (size_t)(top - place) || ((block->size & IS_USED) && !is_whole(block)))
            stop_for_block("", block);
    }
}

/* Makes the heap larger, so that these bytes follow the top: whether it could be done. Others may have taken memory behind the end; then
   that is a block that nobody gives back. */
static int grow(size_t wanted)
{
    size_t more;
    char *now = sbrk(0);
    if (first == NULL || now != end) {
        size_t gap = (size_t)(HEAD - (intptr_t)now) & FLAGS;
        if (sbrk((ptrdiff_t)gap) == (void *)-1)
            return 0;
        now += gap;
        if (first == NULL)
            first = top = now;
        else if (now - top >= LEAST) {
            char *old = top;
            top = now;
            use((struct block *)old, (size_t)(now - old), 0);
        }
        end = now;
        if (BSP_CHECKS_HEAP || (bsp_settings.flags & BSP_LOOKS) != 0)
            bsp_look_further = look;
    }
    more = wanted - (size_t)(end - top);
    more = (more + PAGE - 1) & ~(size_t)(PAGE - 1);
    if (sbrk((ptrdiff_t)more) == (void *)-1) {
        more = wanted - (size_t)(end - top);
        if (sbrk((ptrdiff_t)more) == (void *)-1)
            return 0;
    }
    end += more;
    return 1;
}

/* Gives back what a block has beyond a size. */
static void split(struct block *block, size_t size)
{
    size_t rest = size_of(block) - size;
    if (rest < LEAST)
        return;
    block->size -= (unsigned)rest;
    at(block, size)->size = 0;
    add_free(at(block, size), rest);
}

/* A block of this size, with its flags, or NULL. */
static struct block *find(size_t size)
{
    int list = list_of(size);
    struct block *block = NULL;
    if (free_count > 0) {
        for (block = lists[list]; block != NULL && size_of(block) < size;)
            block = block->next;
        while (block == NULL && ++list < LISTS)
            block = lists[list];
    }
    if (block != NULL) {
        take_free(block);
        split(block, size);
        return block;
    }
    if ((size_t)(end - top) < size && !grow(size))
        return NULL;
    block = (struct block *)top;
    block->size = (unsigned)size;
    top += size;
    return block;
}

static size_t size_for(size_t asked)
{
    size_t size = (asked + HEAD + BEHIND + UNIT - 1) & ~(size_t)FLAGS;
    return size < LEAST ? LEAST : size;
}

static void *refuse(const char *name, const void *place, size_t asked)
{
    bsp_note(NOTE_REFUSED, place, (unsigned)asked, (unsigned)((intptr_t)sbrk(0) - (end - top)) - (unsigned)free_bytes, name);
    errno = ENOMEM;
    return NULL;
}

static void *take(const char *name, const void *place, size_t asked)
{
    size_t size = size_for(asked);
    struct block *block;
    if (BSP_CHECKS_HEAP)
        look();
    block = asked < MOST ? find(size) : NULL;
    if (block == NULL)
        return refuse(name, place, asked);
    use(block, size_of(block), asked);
    if (bsp_settings.flags & BSP_FILLED)
        memset(given(block), (int)bsp_settings.fill, asked);
    return given(block);
}

/* The block that was given, which has to be one. */
static struct block *block_of(const char *function, void *place)
{
    struct block *block = at(place, (size_t)-HEAD);
    if (((intptr_t)place & FLAGS) != 0 || (char *)block < first || (char *)block >= end)
        bsp_stop("free or realloc got an address that malloc did not return");
    if ((char *)block >= top || (block->asked == (unsigned)IS_FREE && !(block->size & IS_USED)))
        bsp_stop("double free: free or realloc got memory that was freed before");
    if (!(block->size & IS_USED) || !is_whole(block))
        stop_for_block(function, block);
    return block;
}

void *malloc(size_t asked)
{
    return take("malloc", __builtin_return_address(0), asked);
}

/* A block becomes free, and one with those before and behind it. Its own head keeps the mark of a free block, also in the middle of one. */
static void release(struct block *block)
{
    size_t size = size_of(block);
    if (BSP_CHECKS_HEAP)
        look();
    block->asked = (unsigned)IS_FREE;
    block->size &= ~(unsigned)IS_USED;
    if (block->size & IS_BEHIND_FREE) {
        size_t before = ((unsigned *)block)[-1];
        block = at(block, (size_t)-before);
        take_free(block);
        size += before;
    }
    if ((char *)block + size == top) {
        top = (char *)block;
        return;
    }
    if (!(at(block, size)->size & IS_USED)) {
        struct block *next = at(block, size);
        size += size_of(next);
        take_free(next);
    }
    add_free(block, size);
}

void free(void *place)
{
    if (place != NULL)
        release(block_of("free: ", place));
}

void *calloc(size_t count, size_t each)
{
    size_t asked = count * each;
    void *place;
    if (each != 0 && asked / each != count)
        return refuse("calloc", __builtin_return_address(0), (size_t)-1);
    place = take("calloc", __builtin_return_address(0), asked);
    return place == NULL ? NULL : memset(place, 0, asked);
}

/* Makes a block larger where it stands, if what is behind it is free. */
static int extend(struct block *block, size_t size)
{
    size_t have = size_of(block);
    struct block *next = at(block, have);
    if ((char *)next == top) {
        if ((size_t)(end - top) < size - have && (!grow(size - have) || (char *)next != top))
            return 0;
        top += size - have;
        block->size += (unsigned)(size - have);
        return 1;
    }
    if ((next->size & IS_USED) || have + size_of(next) < size)
        return 0;
    take_free(next);
    block->size += (unsigned)size_of(next);
    split(block, size);
    return 1;
}

void *realloc(void *old, size_t asked)
{
    const void *caller = __builtin_return_address(0);
    struct block *block;
    void *place;
    if (old == NULL)
        return take("realloc", caller, asked);
    block = block_of("realloc: ", old);
    if (asked < MOST && (size_for(asked) <= size_of(block) || extend(block, size_for(asked)))) {
        split(block, size_for(asked));
        use(block, size_of(block), asked);
        return old;
    }
    place = take("realloc", caller, asked);
    if (place != NULL) {
        memcpy(place, old, block->asked < asked ? block->asked : asked);
        release(block);
    }
    return place;
}

static void *take_aligned(const char *name, const void *caller, size_t alignment, size_t asked)
{
    struct block *block;
    size_t gap;
    void *place;
    if (alignment <= UNIT || asked >= MOST - alignment)
        return take(name, caller, asked);
    place = take(name, caller, asked + alignment + LEAST);
    if (place == NULL)
        return NULL;
    block = at(place, (size_t)-HEAD);
    gap = (alignment - ((size_t)(intptr_t)place & (alignment - 1))) & (alignment - 1);
    if (gap > 0) {
        size_t size = size_of(block);
        gap += gap < LEAST ? alignment : 0;
        use(block, gap, 0);
        at(block, gap)->size = 0;
        use(at(block, gap), size - gap, 0);
        release(block);
        block = at(block, gap);
    }
    split(block, size_for(asked));
    use(block, size_of(block), asked);
    return given(block);
}

void *memalign(size_t alignment, size_t asked)
{
    return take_aligned("memalign", __builtin_return_address(0), alignment, asked);
}

void *aligned_alloc(size_t alignment, size_t asked)
{
    return take_aligned("aligned_alloc", __builtin_return_address(0), alignment, asked);
}

int posix_memalign(void **to, size_t alignment, size_t asked)
{
    *to = take_aligned("posix_memalign", __builtin_return_address(0), alignment, asked);
    return *to == NULL ? ENOMEM : 0;
}

/* How many bytes were asked for of a block that is given to realloc, or 0 for none. */
size_t bsp_asked(void *place)
{
    return place == NULL ? 0 : block_of("realloc: ", place)->asked;
}

size_t malloc_usable_size(void *place)
{
    return place == NULL ? 0 : at(place, (size_t)-HEAD)->asked;
}

struct mallinfo mallinfo(void)
{
    struct mallinfo info;
    memset(&info, 0, sizeof info);
    info.arena = (size_t)(end - first);
    info.fordblks = free_bytes + (size_t)(end - top);
    info.uordblks = info.arena - info.fordblks;
    return info;
}
