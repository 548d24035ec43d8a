/* The clocks of <chrono>, which are the machine's, and std::random_device, whose numbers are the same in each run. */
#include <chrono>
#include <random>

extern "C" double bsp_clock(void);
extern "C" int bsp_pid(void);

namespace std {
namespace chrono {
inline namespace _V2 {

template <class Point> static Point now()
{
    return Point(typename Point::duration(static_cast<long long>(bsp_clock() * 1e9)));
}

system_clock::time_point system_clock::now() noexcept { return chrono::now<time_point>(); }
steady_clock::time_point steady_clock::now() noexcept { return chrono::now<time_point>(); }

} // namespace _V2
} // namespace chrono

void random_device::_M_init(const string &) {}
void random_device::_M_init(const char *, size_t) {}
void random_device::_M_fini() {}
double random_device::_M_getentropy() const noexcept { return 0; }

/* Weyl's sequence, which each rank begins elsewhere, with its bits mixed. */
random_device::result_type random_device::_M_getval()
{
    static unsigned count = 0;
    unsigned bits = (++count + 65536u * static_cast<unsigned>(bsp_pid())) * 0x9e3779b9u;
    bits = (bits ^ bits >> 16) * 0x85ebca6bu;
    bits = (bits ^ bits >> 13) * 0xc2b2ae35u;
    return bits ^ bits >> 16;
}

} // namespace std
