/* What C++ programs need from a system beyond C: memory, and a message if a pure virtual function is called. It is
   made of no header of C++, which may be missing. */
#include <stddef.h>

extern "C" {
void *malloc(size_t size);
void free(void *place);
__attribute__((noreturn)) void bsp_stop(const char *text);

/* Throws std::bad_alloc, where the program has exceptions: throwing.cpp. */
__attribute__((weak)) void bsp_no_memory();

/* The one program that a destructor of an object of the program belongs to. */
__attribute__((weak)) void *__dso_handle = nullptr;

void __cxa_pure_virtual()
{
    bsp_stop("a virtual function is called that the class does not have");
}

void __cxa_deleted_virtual()
{
    bsp_stop("a virtual function is called that was deleted");
}
}

namespace std {
struct nothrow_t;
enum class align_val_t : size_t;
} // namespace std

#define WEAK __attribute__((weak))

WEAK void *operator new(size_t size)
{
    void *place = malloc(size > 0 ? size : 1);
    if (place == nullptr && bsp_no_memory != nullptr)
        bsp_no_memory();
    if (place == nullptr)
        bsp_stop("new has no memory: give --memory");
    return place;
}

WEAK void *operator new[](size_t size) { return operator new(size); }
WEAK void *operator new(size_t size, const std::nothrow_t &) noexcept { return malloc(size > 0 ? size : 1); }
WEAK void *operator new[](size_t size, const std::nothrow_t &) noexcept { return malloc(size > 0 ? size : 1); }
WEAK void operator delete(void *place) noexcept { free(place); }
WEAK void operator delete[](void *place) noexcept { free(place); }
WEAK void operator delete(void *place, size_t) noexcept { free(place); }
WEAK void operator delete[](void *place, size_t) noexcept { free(place); }
WEAK void operator delete(void *place, const std::nothrow_t &) noexcept { free(place); }
WEAK void operator delete[](void *place, const std::nothrow_t &) noexcept { free(place); }
