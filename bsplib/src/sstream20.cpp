/* The members of string streams that only C++20 has, such as str() &&. The headers of GCC's standard library have
   them in a library that is for the host. This file alone is compiled as C++20. */
#include <sstream>

namespace std {

template class basic_stringbuf<char>;
template class basic_istringstream<char>;
template class basic_ostringstream<char>;
template class basic_stringstream<char>;

} // namespace std
