/* In the place of the host's: a node has one locale, that of C. */
#ifndef _GLIBCXX_CXX_LOCALE_H
#define _GLIBCXX_CXX_LOCALE_H 1

#pragma GCC system_header

#include <clocale>

#define _GLIBCXX_NUM_CATEGORIES 0

namespace std {

typedef int *__c_locale;

/* A number as printf writes it. */
inline int __convert_from_v(const __c_locale &, char *to, const int room, const char *form, ...)
{
    __builtin_va_list values;
    __builtin_va_start(values, form);
    const int count = __builtin_vsnprintf(to, static_cast<__SIZE_TYPE__>(room), form, values);
    __builtin_va_end(values);
    return count;
}

} // namespace std

#endif
