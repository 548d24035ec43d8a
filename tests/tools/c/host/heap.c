/* The heap under a checking allocator. A call is a script of steps over 32 blocks: each word is a letter, a block, and sizes behind
   colons. Each block is filled with bytes of its own, and looked at whenever it is touched: that it lies at a multiple of 8 and beside
   all others, that its bytes are as they were, and that those of calloc are 0. What is said are faults, and how many blocks were made;
   both are the same whichever heap there is, as long as there is memory for all. */
#include "calls.h"

enum { BLOCKS = 32 };

static struct {
    unsigned char *bytes;
    size_t size;
    unsigned seed;
} blocks[BLOCKS];
static int made_blocks;

static unsigned char byte_of(unsigned seed, size_t at)
{
    return (unsigned char)((seed + at) * 2654435761u >> 24);
}

static void fault(const char *what, int i)
{
    say(what);
    say_number(i);
}

static void fill(int i)
{
    static unsigned seed = 1;
    blocks[i].seed = seed = seed * 1664525u + 1013904223u;
    for (size_t at = 0; at < blocks[i].size; at++)
        blocks[i].bytes[at] = byte_of(blocks[i].seed, at);
}

static void look_at(int i, size_t count)
{
    for (size_t at = 0; at < count; at++)
        if (blocks[i].bytes[at] != byte_of(blocks[i].seed, at)) {
            fault("changed", i);
            return;
        }
}

static void expect_place(int i, size_t alignment)
{
    uintptr_t begin = (uintptr_t)blocks[i].bytes, end = begin + blocks[i].size;
    if (begin % alignment != 0)
        fault("unaligned", i);
    for (int other = 0; other < BLOCKS; other++)
        if (other != i && blocks[other].bytes != NULL) {
            uintptr_t first = (uintptr_t)blocks[other].bytes, last = first + blocks[other].size;
            if (begin < last && first < end)
                fault("shared", i);
            if (begin == first)
                fault("same", i);
        }
}

static void take(int i, void *bytes, size_t size, size_t alignment, int is_zero)
{
    if (bytes == NULL && size > 0) {
        fault("none", i);
        return;
    }
    made_blocks++;
    blocks[i].bytes = bytes;
    blocks[i].size = bytes == NULL ? 0 : size;
    if (bytes == NULL)
        return;
    expect_place(i, alignment);
    for (size_t at = 0; is_zero && at < size; at++)
        if (blocks[i].bytes[at] != 0) {
            fault("dirty", i);
            break;
        }
    fill(i);
}

static void give_back(int i)
{
    look_at(i, blocks[i].size);
    free(blocks[i].bytes);
    blocks[i].bytes = NULL;
    blocks[i].size = 0;
}

#ifndef SMALL
static void change(int i, size_t size)
{
    size_t kept = blocks[i].size < size ? blocks[i].size : size;
    unsigned char *bytes;
    if (size == 0) {
        give_back(i);
        return;
    }
    look_at(i, blocks[i].size);
    bytes = realloc(blocks[i].bytes, size);
    if (bytes == NULL) {
        fault("none", i);
        return;
    }
    blocks[i].bytes = bytes;
    look_at(i, kept);
    take(i, bytes, size, 8, 0);
}

static void take_aligned(int i, size_t alignment, size_t size)
{
    void *place = NULL;
    if (made_blocks % 2 == 0)
        place = aligned_alloc(alignment, size / alignment * alignment + alignment);
    else if (posix_memalign(&place, alignment, size) != 0)
        fault("refused", i);
    take(i, place, size, alignment, 0);
}

/* More than there is, or more than a size can say: each has to be refused, and nothing may change. */
static void ask_too_much(int kind)
{
    void *place;
    volatile size_t half = SIZE_MAX / 2, most = SIZE_MAX;
    errno = 0;
    if (kind == 0)
        place = malloc(half);
    else if (kind == 1)
        place = calloc(half, 4);
    else if (kind == 2)
        place = calloc(1u << 16, most / (1u << 16) + 1);
    else if (kind == 3)
        place = malloc(most);
    else
        place = aligned_alloc(64, most - 63);
    say(place == NULL ? "refused" : "given");
    say_errno();
}
#endif

static size_t operand(char **at)
{
    size_t number = 0;
    for (; **at >= '0' && **at <= '9'; ++*at)
        number = 10 * number + (size_t)(**at - '0');
    *at += **at == ':';
    return number;
}

static void make_step(char *step)
{
    char letter = *step++;
    int i = (int)operand(&step);
    size_t first = operand(&step), second = operand(&step);
#ifndef SMALL
    if (letter == 'r') {
        change(i, first);
        return;
    }
    if (letter == 'x') {
        ask_too_much(i);
        return;
    }
#endif
    if (blocks[i].bytes != NULL || letter == 'f')
        give_back(i);
    if (letter == 'm')
        take(i, malloc(first), first, 8, 0);
    else if (letter == 'c')
        take(i, calloc(first, second), first * second, 8, 1);
#ifndef SMALL
    else if (letter == 'a')
        take_aligned(i, second, first);
#endif
}

int main(void)
{
    while (read_call()) {
        made_blocks = 0;
        while (has_word())
            make_step(read_word());
        for (int i = 0; i < BLOCKS; i++)
            give_back(i);
        say_number(made_blocks);
        end_call();
    }
    return 0;
}
