/* Errors by longjmp. */
#include <bsp.h>
#include <setjmp.h>
#include <stdio.h>

static jmp_buf back;

static int divide(int a, int b)
{
    if (b == 0)
        longjmp(back, 7);
    return a / b;
}

int main(void)
{
    volatile int i;
    bsp_begin(bsp_nprocs());
    for (i = 2; i >= 0; i--) {
        int error = setjmp(back);
        if (error == 0)
            printf("%d/%d = %d\n", 10 + bsp_pid(), i, divide(10 + bsp_pid(), i));
        else
            printf("error %d\n", error);
    }
    bsp_end();
    return 0;
}
