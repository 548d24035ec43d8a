/* LZ4: compresses two of its own sources at all levels, fast and high, and decompresses them. */
#include <stdio.h>
#include <stdlib.h>
#include <string.h>

#include "embed.h"
#include "lz4.h"
#include "lz4hc.h"

EMBED(fast_source, "lz4.c");
EMBED(high_source, "lz4hc.c");

static int pack(const char *text, int length) {
    int room = LZ4_compressBound(length);
    char *packed = malloc(room), *again = malloc(length);
    if (!packed || !again) {
        puts("out of memory");
        return 1;
    }
    for (int level = 0; level <= 12; level++) {
        int size = level < 3 ? LZ4_compress_fast(text, packed, length, room, 9 - 4 * level)
                             : LZ4_compress_HC(text, packed, length, room, level);
        for (int i = 0; i < 10; i++) {
            if (LZ4_decompress_safe(packed, again, size, length) != length) {
                return 1;
            }
        }
        if (memcmp(again, text, length) != 0) {
            return 1;
        }
        memset(again, 0, length);
        /* The fast levels hash whole registers, so their matches depend on the width of a register. */
        if (level < 3) {
            printf("fast %d: decompressed\n", level);
        } else {
            printf("level %d: %d of %d bytes, sum %08x\n", level, size, length, sum_of(SUM_START, packed, size));
        }
    }
    free(packed);
    free(again);
    return 0;
}

int main(void) { return pack(fast_source, LENGTH(fast_source)) || pack(high_source, LENGTH(high_source)); }
