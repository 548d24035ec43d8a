# The start of each node, with the memory's size in sp and all other registers 0. Memory that the image does not fill is 0,
# so .bss needs no loop.
    .section .text.start, "ax"
    .globl _start
    .type _start, @function
_start:
    .option push
    .option norelax
    la gp, __global_pointer$
    .option pop
    la t0, bsp_memory_size
    sw sp, 0(t0)
    la sp, __stack_top
    la tp, __tls_base
    call bsp_start
    .size _start, . - _start
