/* Asks whether there is a shell, and goes on without one. */
#include <bsp.h>
#include <stdio.h>
#include <stdlib.h>
#include <unistd.h>

int main(void)
{
    unsigned char bytes[8];
    FILE *random = fopen("/dev/urandom", "rb");
    bsp_begin(bsp_nprocs());
    printf("%d %d\n", random != NULL && fread(bytes, 1, sizeof bytes, random) == sizeof bytes, FILENAME_MAX > 100);
    if (bsp_nprocs() > 1000 && system(NULL))
        printf("%d\n", system("date"));
    bsp_end();
    return 0;
}
