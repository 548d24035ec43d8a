/* The exceptions of streams, which are errors of <system_error> with their categories. */
#include <cstring>
#include <ios>
#include <system_error>

namespace std {

inline namespace _V2 {

error_category::~error_category() noexcept = default;
__cow_string error_category::_M_message(int number) const
{
    string text = message(number);
    return {text.c_str(), text.size()};
}
error_condition error_category::default_error_condition(int number) const noexcept { return error_condition(number, *this); }
bool error_category::equivalent(int number, const error_condition &other) const noexcept { return default_error_condition(number) == other; }
bool error_category::equivalent(const error_code &code, int number) const noexcept { return *this == code.category() && code.value() == number; }

} // namespace _V2

namespace {

/* A category of errors: by the numbers of errno, or of streams. */
struct Category : error_category {
    const char *kind;
    explicit constexpr Category(const char *it) : kind(it) {}
    const char *name() const noexcept override { return kind; }
    string message(int number) const override { return strcmp(kind, "iostream") == 0 ? "iostream error" : strerror(number); }
};

const Category generic("generic"), of_system("system"), of_streams("iostream");

} // namespace

inline namespace _V2 {

const error_category &generic_category() noexcept { return generic; }
const error_category &system_category() noexcept { return of_system; }

} // namespace _V2

const error_category &iostream_category() noexcept { return of_streams; }
error_condition error_code::default_error_condition() const noexcept { return category().default_error_condition(value()); }
system_error::~system_error() noexcept = default;
void __throw_system_error(int number) { throw system_error(error_code(number, generic_category())); }

ios_base::failure::failure(const string &text) : system_error(io_errc::stream, text) {}
ios_base::failure::failure(const string &text, const error_code &code) : system_error(code, text) {}
ios_base::failure::failure(const char *text, const error_code &code) : system_error(code, text) {}
ios_base::failure::~failure() {}
const char *ios_base::failure::what() const throw() { return runtime_error::what(); }

void __throw_ios_failure(const char *text) { throw ios_base::failure(text); }
void __throw_ios_failure(const char *text, int) { throw ios_base::failure(text); }

} // namespace std
