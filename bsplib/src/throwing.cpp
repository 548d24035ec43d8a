/* What GCC's exception runtime needs from a system: memory, the tables of functions, and a message for an uncaught exception.
   The rest of it is in vendor/libstdc++. */
#include <cstdio>
#include <cstdlib>
#include <cstring>
#include <exception>
#include <new>
#include <typeinfo>

#include "unwind-cxx.h"

extern "C" {
__attribute__((noreturn)) void bsp_stop(const char *text);
void __register_frame_info(const void *begin, void *object);
extern const char __eh_frame_start[];
}

namespace {

/* The unwinder finds functions by their tables once it knows these; it keeps what it knows in an object of its own. */
void know_frames()
{
    static long object[16];
    static bool is_known = false;
    if (!is_known)
        __register_frame_info(__eh_frame_start, object);
    is_known = true;
}

void *cleared(std::size_t size)
{
    void *place = std::malloc(size);
    if (place == nullptr)
        bsp_stop("an exception has no memory: give --memory");
    return std::memset(place, 0, size);
}

/* Builtin types, by the letters that GCC has for them. */
const char *builtin(char letter)
{
    static const char *const names[] = {"aint8_t", "bbool", "cchar", "ddouble", "ffloat", "iint", "junsigned", "llong", "munsigned long",
        "sshort", "tunsigned short", "xlong long", "yunsigned long long"};
    for (const char *name : names)
        if (*name == letter)
            return name + 1;
    return nullptr;
}

/* Writes a name of GCC as it stands in a program, where it is that of a class without templates, a builtin type or a text. */
bool spell(const char *from, char *to, std::size_t room)
{
    std::size_t used = 0;
    if (std::strcmp(from, "PKc") == 0 || builtin(*from) != nullptr) {
        std::snprintf(to, room, "%s", *from == 'P' ? "const char *" : builtin(*from));
        return true;
    }
    from += *from == 'N';
    to[0] = '\0';
    while (*from != '\0' && *from != 'E') {
        bool is_std = std::strncmp(from, "St", 2) == 0;
        char *end;
        unsigned long size = is_std ? 3 : std::strtoul(from, &end, 10);
        const char *text = is_std ? "std" : end;
        if (size == 0 || size > std::strlen(text) || used + size + 3 > room)
            return false;
        used += (std::size_t)std::snprintf(to + used, room - used, "%s%.*s", used > 0 ? "::" : "", (int)size, text);
        from = is_std ? from + 2 : text + size;
    }
    return used > 0;
}

/* The whole line of an exception: its type, and what it says of itself. */
__attribute__((noreturn)) void tell(const char *type, const char *what)
{
    char name[120], line[400];
    if (std::strcmp(type, "St9bad_alloc") == 0)
        bsp_stop("new has no memory: give --memory");
    if (!spell(type, name, sizeof name))
        std::snprintf(name, sizeof name, "%s", type);
    std::snprintf(line, sizeof line, "%s was thrown and not caught%s%s", name, what != nullptr ? ": " : "", what != nullptr ? what : "");
    bsp_stop(line);
}

void stop_uncaught()
{
    const std::type_info *type = abi::__cxa_current_exception_type();
    if (type == nullptr)
        bsp_stop("std::terminate was called");
    try {
        throw;
    } catch (const std::exception &it) {
        tell(type->name(), it.what());
    } catch (const char *text) {
        tell(type->name(), text);
    } catch (...) {
        tell(type->name(), nullptr);
    }
}

} // namespace

/* What new does without memory, where the program has exceptions: new.cpp. */
extern "C" void bsp_no_memory()
{
    throw std::bad_alloc();
}

namespace __cxxabiv1 {

std::terminate_handler __terminate_handler = stop_uncaught;

extern "C" void *__cxa_allocate_exception(std::size_t size) noexcept
{
    know_frames();
    return (char *)cleared(size + sizeof(__cxa_refcounted_exception)) + sizeof(__cxa_refcounted_exception);
}

extern "C" void __cxa_free_exception(void *place) noexcept
{
    std::free((char *)place - sizeof(__cxa_refcounted_exception));
}

extern "C" __cxa_dependent_exception *__cxa_allocate_dependent_exception() noexcept
{
    know_frames();
    return (__cxa_dependent_exception *)cleared(sizeof(__cxa_dependent_exception));
}

extern "C" void __cxa_free_dependent_exception(__cxa_dependent_exception *it) noexcept
{
    std::free(it);
}

} // namespace __cxxabiv1
