/* With bspcc --check: functions that print a string, and that report NULL instead. The linker calls each of these instead of the function
   whose name comes after __wrap_.
   Without it there is no test, and the bytes at address 0 are printed. */
#include <stdio.h>

#include "machine.h"

int __real_puts(const char *text);
int __wrap_puts(const char *text);
int __wrap_puts(const char *text)
{
    if (text == NULL)
        bsp_stop_for_null("puts");
    return __real_puts(text);
}

int __real_fputs(const char *text, FILE *file);
int __wrap_fputs(const char *text, FILE *file);
int __wrap_fputs(const char *text, FILE *file)
{
    if (text == NULL)
        bsp_stop_for_null("fputs");
    return __real_fputs(text, file);
}
