/* A text of standard input, encoded by parts; rank 0 reads, and messages bring lines to ranks and back. */
#include <bsp.h>
#include <ctype.h>
#include <stdio.h>
#include <string.h>

int main(void)
{
    char line[128];
    int tag_size = sizeof(int), number = 0, count, bytes, i, status, tag;
    static char lines[64][128];
    bsp_begin(bsp_nprocs());
    bsp_set_tagsize(&tag_size);
    bsp_sync();
    if (bsp_pid() == 0)
        while (fgets(line, sizeof line, stdin)) {
            bsp_send(number % bsp_nprocs(), &number, line, (int)strlen(line) + 1);
            number++;
        }
    bsp_sync();
    bsp_qsize(&count, &bytes);
    for (i = 0; i < count; i++) {
        bsp_get_tag(&status, &tag);
        bsp_move(line, status);
        for (char *at = line; *at; at++)
            if (isalpha((unsigned char)*at))
                *at = (char)((isupper((unsigned char)*at) ? 'A' : 'a') + (tolower((unsigned char)*at) - 'a' + 13) % 26);
        bsp_send(0, &tag, line, status);
    }
    bsp_sync();
    if (bsp_pid() == 0) {
        bsp_qsize(&count, &bytes);
        for (i = 0; i < count; i++) {
            bsp_get_tag(&status, &tag);
            bsp_move(lines[tag], status);
        }
        for (i = 0; i < count; i++)
            fputs(lines[i], stdout);
    }
    bsp_end();
    return 0;
}
