/* qsort, bsearch, and what search.h has. A call is: the function, the size of an element, a kind of order, and keys. Each element is
   its key and bytes that follow from its place, so that it shows whether one was torn apart. */
#ifndef SMALL
#include <search.h>
#endif

#include "calls.h"

enum { MOST = 2000, MOST_SIZE = 40 };

static unsigned char elements[MOST * MOST_SIZE];
static size_t size, count;
static long compared;
static int is_backwards;

/* Of an adversary, which makes up its keys as it is asked: one that is compared with the candidate for the pivot becomes the least. */
static int keys[MOST], next_key, candidate, is_adversary;
enum { GAS = 1 << 20 };

static int answer_adversary(int left, int right)
{
    if (keys[left] == GAS && keys[right] == GAS)
        keys[left == candidate ? left : right] = next_key++;
    if (keys[left] == GAS)
        candidate = left;
    else if (keys[right] == GAS)
        candidate = right;
    return keys[left] - keys[right];
}

static int key_of(const void *element)
{
    const unsigned char *byte = (const unsigned char *)element;
    return size == 1 ? byte[0] : byte[0] | byte[1] << 8;
}

static int compare(const void *left, const void *right)
{
    int first = key_of(left), second = key_of(right);
    compared++;
    if (is_adversary)
        return answer_adversary(first, second);
    if (is_backwards)
        return (first < second) - (first > second);
    return (first > second) - (first < second);
}

static unsigned char byte_at(int key, size_t at)
{
    return (unsigned char)((unsigned)key * 31u + at * 7u);
}

static void make_element(size_t i, int key)
{
    unsigned char *element = elements + i * size;
    for (size_t at = 0; at < size; at++)
        element[at] = at == 0 ? (unsigned char)key : at == 1 ? (unsigned char)(key >> 8) : byte_at(key, at);
}

static void say_element(const unsigned char *element)
{
    int key = key_of(element);
    say_number(key);
    for (size_t at = 2; at < size; at++)
        if (element[at] != byte_at(key, at)) {
            say("torn");
            return;
        }
}

static void say_sorted(void)
{
    long most = 40;
    for (size_t rest = count; rest > 0; rest /= 2)
        most += (long)(6 * count);
    for (size_t i = 0; !is_adversary && i < count; i++)
        say_element(elements + i * size);
    for (size_t i = 1; is_adversary && i < count; i++)
        if (keys[key_of(elements + (i - 1) * size)] > keys[key_of(elements + i * size)])
            say("unsorted");
    if (compared > most)
        say("slow");
}

#ifndef SMALL
static int compare_keys(const void *left, const void *right)
{
    return (*(const int *)left > *(const int *)right) - (*(const int *)left < *(const int *)right);
}

static void say_node(const void *node, VISIT visit, int depth)
{
    (void)depth;
    if (visit == postorder || visit == leaf)
        say_number(**(int *const *)node);
}

static void grow_tree(void)
{
    static int stored[MOST];
    void *root = NULL;
    for (size_t i = 0; i < count; i++) {
        stored[i] = key_of(elements + i * size);
        void *found = tsearch(&stored[i], &root, compare_keys);
        say(found != NULL && **(int **)found == stored[i] ? "." : "lost");
        if (i % 3 == 2)
            say(tdelete(&stored[i - 1], &root, compare_keys) != NULL ? "gone" : "absent");
        say(tfind(&stored[i / 2], &root, compare_keys) != NULL ? "found" : "absent");
    }
    twalk(root, say_node);
}

static void look_up(void)
{
    for (int key = 0; key < 40; key++) {
        unsigned char element[MOST_SIZE] = {(unsigned char)key, (unsigned char)(key >> 8)};
        const unsigned char *found = (const unsigned char *)bsearch(element, elements, count, size, compare);
        say(found == NULL ? "-" : key_of(found) == key && (size_t)(found - elements) % size == 0 ? "+" : "wrong");
    }
}
#endif

int main(void)
{
    while (read_call()) {
        const char *function = read_word();
        size = (size_t)read_number();
        is_backwards = (int)read_number();
        is_adversary = is_backwards == 2;
        for (count = 0; has_word() && count < MOST; count++)
            make_element(count, (int)read_number());
        for (size_t i = 0; i < count; i++)
            keys[i] = GAS;
        compared = next_key = candidate = 0;
        if (strcmp(function, "tree") != 0)
            qsort(elements, count, size, compare);
        if (strcmp(function, "qsort") == 0)
            say_sorted();
#ifndef SMALL
        else if (strcmp(function, "bsearch") == 0)
            look_up();
        else
            grow_tree();
#endif
        end_call();
    }
    return 0;
}
