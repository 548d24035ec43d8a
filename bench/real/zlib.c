/* zlib: compresses a text at all nine levels, and inflates it again. */
#include <stdio.h>
#include <stdlib.h>
#include <string.h>

#include "embed.h"
#include "zlib.h"

EMBED(text, "ChangeLog");

int main(void) {
    uLong length = LENGTH(text), room = compressBound(length);
    Bytef *packed = malloc(room), *again = malloc(length);
    if (!packed || !again) {
        puts("out of memory");
        return 1;
    }
    for (int level = 1; level <= 9; level++) {
        uLong size = room, whole = length;
        if (compress2(packed, &size, (const Bytef *)text, length, level) != Z_OK) {
            return 1;
        }
        if (uncompress(again, &whole, packed, size) != Z_OK || whole != length || memcmp(again, text, length) != 0) {
            return 1;
        }
        printf("level %d: %lu of %lu bytes, adler %08lx, crc %08lx\n", level, size, length, adler32(1, packed, size),
            crc32(0, packed, size));
    }
    return 0;
}
