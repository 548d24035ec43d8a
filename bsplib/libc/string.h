/* picolibc's string.h without names that no standard has, so that a program may have functions of these names. */
#pragma GCC system_header

#define strlwr bsp_no_strlwr
#define strupr bsp_no_strupr
#define strnstr bsp_no_strnstr
#include_next <string.h>
#undef strlwr
#undef strupr
#undef strnstr
