/* The functions that headers of the C++ standard library need to be linked: strings, complex numbers, and one for each exception. */
/* Where nothing can be read, operator>> leaves what it is given as it is. */
#pragma GCC diagnostic ignored "-Wmaybe-uninitialized"
#include <complex>
#include <cstdarg>
#include <cstdio>
#include <functional>
#include <istream>
#include <new>
#include <ostream>
#include <stdexcept>
#include <string>
#include <typeinfo>

namespace std {

void __throw_bad_alloc() { throw bad_alloc(); }
void __throw_bad_array_new_length() { throw bad_array_new_length(); }
void __throw_bad_cast() { throw bad_cast(); }
void __throw_bad_typeid() { throw bad_typeid(); }
void __throw_bad_exception() { throw bad_exception(); }
void __throw_bad_function_call() { throw bad_function_call(); }
void __throw_logic_error(const char *text) { throw logic_error(text); }
void __throw_domain_error(const char *text) { throw domain_error(text); }
void __throw_invalid_argument(const char *text) { throw invalid_argument(text); }
void __throw_length_error(const char *text) { throw length_error(text); }
void __throw_out_of_range(const char *text) { throw out_of_range(text); }
void __throw_out_of_range_fmt(const char *form, ...)
{
    char text[200];
    va_list values;
    va_start(values, form);
    vsnprintf(text, sizeof text, form, values);
    va_end(values);
    throw out_of_range(text);
}
void __throw_runtime_error(const char *text) { throw runtime_error(text); }
void __throw_range_error(const char *text) { throw range_error(text); }
void __throw_overflow_error(const char *text) { throw overflow_error(text); }
void __throw_underflow_error(const char *text) { throw underflow_error(text); }

const nothrow_t nothrow{};

template class basic_string<char>;
/* GCC's headers leave it to the library, too, where nothing is put in line, as with -O0. */
template class allocator<char>;
template ostream &operator<<(ostream &, const complex<float> &);
template ostream &operator<<(ostream &, const complex<double> &);
template istream &operator>>(istream &, complex<float> &);
template istream &operator>>(istream &, complex<double> &);

} // namespace std
