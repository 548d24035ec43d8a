/* The first program of a tutorial. */
#include <bsp.h>
#include <stdio.h>

void main()
{
    bsp_begin(bsp_nprocs());
    printf("Hello from process %d of %d\n", bsp_pid(), bsp_nprocs());
    bsp_end();
}
