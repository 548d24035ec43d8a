/* How a node's memory is laid out. From 0 on is the stack, which grows down, so that one which is too deep leaves the memory and
   stops its node; then code and constants, in pages of their own, so that nodes share these whatever they store; then variables; then
   the heap, up to the memory's size. */
ENTRY(_start)

PHDRS
{
    code PT_LOAD FLAGS(5);
    data PT_LOAD FLAGS(6);
    tls PT_TLS FLAGS(4);
}

SECTIONS
{
    __stack_size = DEFINED(__stack_size) ? __stack_size : 131072;
    . = ALIGN(__stack_size, 16);
    __stack_top = .;
    /* NULL points here: the last bytes that a stack comes to. */
    bsp_null = 0;

    .text ALIGN(4096) : {
        KEEP(*(.text.start))
        *(.text.unlikely .text.unlikely.* .text.startup .text.startup.* .text .text.* .gnu.linkonce.t.*)
    } :code
    /* By these an exception finds its way through functions. A program in C has none. */
    .eh_frame : { __eh_frame_start = .; KEEP(*(.eh_frame .eh_frame.*)) LONG(0) } :code
    .gcc_except_table : { *(.gcc_except_table .gcc_except_table.*) } :code
    .rodata : { *(.rodata .rodata.* .gnu.linkonce.r.* .srodata .srodata.*) } :code
    .init_array : {
        __preinit_array_start = .;
        KEEP(*(.preinit_array))
        __preinit_array_end = .;
        __init_array_start = .;
        KEEP(*(SORT_BY_INIT_PRIORITY(.init_array.*) .init_array))
        __init_array_end = .;
        __fini_array_start = .;
        KEEP(*(SORT_BY_INIT_PRIORITY(.fini_array.*) .fini_array))
        __fini_array_end = .;
    } :code

    /* Nothing is stored between the last constant and the end of this guard, so an index below the first variable shows. */
    .guard ALIGN(4096) : {
        . += 48;
        bsp_guard = .;
        LONG(0) LONG(0) LONG(0) LONG(0)
    } :data
    .data : {
        *(.data .data.* .gnu.linkonce.d.*)
        . = ALIGN(8);
        __global_pointer$ = . + 0x800;
        *(.sdata .sdata.* .gnu.linkonce.s.*)
        . = ALIGN(16);
    } :data
    /* Variables of a thread, of which a node has one: they stay where they are loaded. */
    .tdata : {
        __tls_base = .;
        *(.tdata .tdata.* .gnu.linkonce.td.*)
    } :data :tls
    .tbss (NOLOAD) : { *(.tbss .tbss.* .gnu.linkonce.tb.* .tcommon) } :data :tls
    /* The linker gives .tbss no room of its own. */
    .tbss_room (NOLOAD) : { . = . + SIZEOF(.tbss); . = ALIGN(16); } :data
    /* Has room where a function is linked that asks for a place in the input: src/streams.c. */
    .goes_back (NOLOAD) : { *(.bss.bsp_goes_back) } :data
    .bss (NOLOAD) : {
        __bss_start = .;
        *(.sbss .sbss.* .gnu.linkonce.sb.* .scommon)
        *(.bss .bss.* .gnu.linkonce.b.* COMMON)
        . = ALIGN(16);
    } :data
    bsp_goes_back = SIZEOF(.goes_back) > 0 ? 1 : 0;
    __heap_start = .;
    _end = .;
    end = .;

    /* Of which sources the program is, for bsprun. */
    .bspcc.sources 0 : { KEEP(*(.bspcc.sources)) }

    /DISCARD/ : { *(.comment .note .note.*) }
}
