/* The standard input of C++, over that of C. It is linked where a program uses it, and so is what reads and goes back. */
#include <cstdio>
#include <ext/stdio_sync_filebuf.h>
#include <istream>
#include <new>
#include <ostream>

using file_bytes = __gnu_cxx::stdio_sync_filebuf<char>;
template class __gnu_cxx::stdio_sync_filebuf<char>;

namespace std {

alignas(istream) char cin[sizeof(istream)];

} // namespace std

extern "C" void bsp_make_cin(std::ostream *out)
{
    alignas(file_bytes) static char bytes[sizeof(file_bytes)];
    std::istream *in = new (std::cin) std::istream(new (bytes) file_bytes(stdin));
    in->tie(out);
}
