/* bsp_abort and bsp_vabort, apart from the rest since they need vfprintf. No C library has them. */
#include <stdarg.h>
#include <stdio.h>

#include "bsp.h"
#include "machine.h"

void bsp_vabort(const char *format, va_list arguments)
{
    vfprintf(stderr, format, arguments);
    if (bsp_flush_files != NULL)
        bsp_flush_files();
    bsp_stdio_flush();
    for (;;)
        machine_call_2(CALL_ABORT, 0, 0);
}

void bsp_abort(const char *format, ...)
{
    va_list arguments;
    va_start(arguments, format);
    bsp_vabort(format, arguments);
}
