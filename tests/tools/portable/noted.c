/* The first message wins, which stands in a file alone. */
#include <bsp.h>
#include <stdio.h>

int main(void)
{
    int s, winner, messages, bytes;
    FILE *file;
    bsp_begin(bsp_nprocs());
    s = bsp_pid();
    if (s > 0)
        bsp_send(0, NULL, &s, sizeof s);
    bsp_sync();
    bsp_qsize(&messages, &bytes);
    if (messages > 0) {
        bsp_move(&winner, sizeof winner);
        file = fopen("first.txt", "w");
        if (file == NULL)
            bsp_abort("no file\n");
        fprintf(file, "rank %d\n", winner);
        fclose(file);
    }
    bsp_end();
    return 0;
}
