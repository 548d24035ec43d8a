/* Plain copies of what an exchange of many.s or of large.s moves: many, 256,000 pieces of 16 bytes, from each of 256 nodes to all in turn;
 * large, 16 MiB at once. Each is made TURNS times.
 * Usage: pieces many|large TURNS */
#include <stdlib.h>
#include <string.h>

enum { NODES = 256, REQUESTS = 1000, PIECE = 16, WHOLE = 16 << 20 };

static unsigned char *source, *target;

static void copy_pieces(void)
{
    for (size_t rank = 0; rank < NODES; rank++)
        for (size_t request = 0; request < REQUESTS; request++) {
            size_t other = (rank + request) % NODES;
            memcpy(target + (other * REQUESTS + request) * PIECE, source + (rank * REQUESTS + request) * PIECE, PIECE);
        }
}

static void copy_whole(void)
{
    memcpy(target, source, WHOLE);
}

int main(int count, char **words)
{
    if (count != 3)
        return 2;
    source = malloc(WHOLE);
    target = malloc(WHOLE);
    if (source == NULL || target == NULL)
        return 1;
    memset(source, 1, WHOLE);
    memset(target, 2, WHOLE);
    int turns = atoi(words[2]);
    for (int turn = 0; turn < turns; turn++) {
        source[0] = (unsigned char)turn; /* so that no copy is the same as the one before */
        if (strcmp(words[1], "many") == 0)
            copy_pieces();
        else
            copy_whole();
    }
    return target[0] != (unsigned char)(turns - 1);
}
