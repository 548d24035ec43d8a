/* A log that is there already gets a line of rank 0. */
#include <bsp.h>
#include <stdio.h>

int main(void)
{
    bsp_begin(bsp_nprocs());
    if (bsp_pid() == 0) {
        char line[100];
        int lines = 0;
        FILE *log = fopen("run.log", "a");
        fprintf(log, "a run on %d ranks\n", bsp_nprocs());
        fclose(log);
        log = fopen("run.log", "r");
        while (fgets(line, sizeof line, log))
            lines++;
        fclose(log);
        printf("%d lines\n", lines);
    }
    bsp_end();
    return 0;
}
