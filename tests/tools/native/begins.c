/* Takes as many processes as the first argument says, which rank 0 alone knows, and prints where it is. */
#include <bsp.h>
#include <stdio.h>
#include <stdlib.h>

static int most;

static void spmd(void)
{
    bsp_begin(most);
    printf("rank %d of %d ", bsp_pid(), bsp_nprocs());
    bsp_sync();
    printf("goes on\n");
    bsp_sync();
    printf("%s\n", bsp_time() > 0.0 && bsp_dtime() > 0.0 ? "time goes by" : "time stands still");
    bsp_end();
}

int main(int argc, char **argv)
{
    bsp_init(spmd, argc, argv);
    most = atoi(argv[1]);
    printf("before\n");
    spmd();
    printf("after\n");
    return 0;
}
