/* The exceptions of <stdexcept>. Their texts are shared by copies, since copies may not fail. */
#include <cstdlib>
#include <cstring>
#include <functional>
#include <ios>
#include <memory>
#include <stdexcept>
#include <string>

namespace {

/* A text, in front of which stands how many share it. */
const char *shared(const char *text, std::size_t size)
{
    int *place = static_cast<int *>(::operator new(sizeof(int) + size + 1));
    char *copy = reinterpret_cast<char *>(place + 1);
    *place = 1;
    std::memcpy(copy, text, size);
    copy[size] = '\0';
    return copy;
}

int *count_of(const char *text)
{
    return reinterpret_cast<int *>(const_cast<char *>(text)) - 1;
}

const char *again(const char *text)
{
    ++*count_of(text);
    return text;
}

void drop(const char *text)
{
    if (--*count_of(text) == 0)
        ::operator delete(count_of(text));
}

} // namespace

namespace std {

__cow_string::__cow_string() : _M_p(shared("", 0)) {}
__cow_string::__cow_string(const string &text) : _M_p(shared(text.c_str(), text.size())) {}
__cow_string::__cow_string(const char *text, size_t size) : _M_p(shared(text, size)) {}
__cow_string::__cow_string(const __cow_string &other) noexcept : _M_p(again(other._M_p)) {}
__cow_string::__cow_string(__cow_string &&other) noexcept : _M_p(again(other._M_p)) {}
__cow_string::~__cow_string() { drop(_M_p); }

__cow_string &__cow_string::operator=(const __cow_string &other) noexcept
{
    const char *old = _M_p;
    _M_p = again(other._M_p);
    drop(old);
    return *this;
}

__cow_string &__cow_string::operator=(__cow_string &&other) noexcept
{
    return *this = static_cast<const __cow_string &>(other);
}

#define BASE(error)                                                                                                                               \
    error::error(const string &text) : _M_msg(text) {}                                                                                            \
    error::error(const char *text) : _M_msg(text, strlen(text)) {}                                                                                \
    error::error(const error &other) noexcept : exception(other), _M_msg(other._M_msg) {}                                                         \
    error::error(error &&other) noexcept : exception(other), _M_msg(other._M_msg) {}                                                              \
    error &error::operator=(const error &other) noexcept = default;                                                                               \
    error &error::operator=(error &&other) noexcept = default;                                                                                    \
    error::~error() noexcept {}                                                                                                                   \
    const char *error::what() const noexcept { return _M_msg._M_p; }

#define DERIVED(error, base)                                                                                                                      \
    error::error(const string &text) : base(text) {}                                                                                              \
    error::error(const char *text) : base(text) {}                                                                                                \
    error::~error() noexcept {}

BASE(logic_error)
BASE(runtime_error)
DERIVED(domain_error, logic_error)
DERIVED(invalid_argument, logic_error)
DERIVED(length_error, logic_error)
DERIVED(out_of_range, logic_error)
DERIVED(range_error, runtime_error)
DERIVED(overflow_error, runtime_error)
DERIVED(underflow_error, runtime_error)

bad_weak_ptr::~bad_weak_ptr() noexcept {}
const char *bad_weak_ptr::what() const noexcept { return "bad_weak_ptr"; }
bad_function_call::~bad_function_call() noexcept {}
const char *bad_function_call::what() const noexcept { return "a std::function is called that has no function"; }

} // namespace std
