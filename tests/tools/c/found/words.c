/* The longest line of the input, and how many words it all has: the input is read twice. */
#include <bsp.h>
#include <ctype.h>
#include <stdio.h>
#include <stdlib.h>
#include <string.h>
#include <unistd.h>

int main(void)
{
    char *line = NULL, longest[200] = "";
    size_t room = 0;
    int number = 0, count = 0, total = 0, i, packets;
    bsp_begin(bsp_nprocs());
    if (isatty(0) && bsp_pid() == 0)
        printf("type some lines, and end them with Ctrl-D\n");
    while (getline(&line, &room, stdin) != -1)
        if (number++ % bsp_nprocs() == bsp_pid())
            for (i = 0; line[i]; i++)
                count += !isspace((unsigned char)line[i]) && (i == 0 || isspace((unsigned char)line[i - 1]));
    rewind(stdin);
    while (fgets(longest + 100, 100, stdin))
        if (strlen(longest + 100) > strlen(longest))
            strcpy(longest, longest + 100);
    bsp_send(0, NULL, &count, sizeof count);
    bsp_sync();
    bsp_qsize(&packets, NULL);
    while (packets-- > 0) {
        bsp_move(&count, sizeof count);
        total += count;
    }
    if (bsp_pid() == 0)
        printf("%d lines, %d words; the longest line is: %s", number, total, longest);
    bsp_end();
    return 0;
}
