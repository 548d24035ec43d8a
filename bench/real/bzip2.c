/* bzip2: compresses its own three samples, compares the results with those of the package, and decompresses them. */
#include <stdio.h>
#include <stdlib.h>
#include <string.h>

#include "bzlib.h"
#include "embed.h"

EMBED(first, "sample1.ref");
EMBED(first_packed, "sample1.bz2");
EMBED(second, "sample2.ref");
EMBED(second_packed, "sample2.bz2");
EMBED(third, "sample3.ref");
EMBED(third_packed, "sample3.bz2");

/* With BZ_NO_STDIO the library calls this after an internal error. */
void bz_internal_error(int code);
void bz_internal_error(int code) {
    printf("internal error %d\n", code);
    exit(1);
}

static int sample(int number, const char *text, unsigned long length, const char *packed, unsigned long size) {
    unsigned room = length + length / 100 + 600, whole = length;
    char *made = malloc(room), *again = malloc(length);
    if (!made || !again) {
        puts("out of memory");
        return 1;
    }
    if (BZ2_bzBuffToBuffCompress(made, &room, (char *)text, length, number, 0, 0) != BZ_OK) {
        return 1;
    }
    int as_given = room == size && memcmp(made, packed, size) == 0;
    if (BZ2_bzBuffToBuffDecompress(again, &whole, made, room, 0, 0) != BZ_OK || whole != length || memcmp(again, text, length) != 0) {
        return 1;
    }
    printf("sample %d: %u of %lu bytes, sum %08x, %s\n", number, room, length, sum_of(SUM_START, made, room),
        as_given ? "as given" : "other");
    free(made);
    free(again);
    return 0;
}

int main(void) {
    return sample(1, first, LENGTH(first), first_packed, LENGTH(first_packed))
        || sample(2, second, LENGTH(second), second_packed, LENGTH(second_packed))
        || sample(3, third, LENGTH(third), third_packed, LENGTH(third_packed));
}
