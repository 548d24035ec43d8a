/* The functions that <regex> needs to be linked: the order of strings in the locale C, and its errors. */
#include <cstring>
#include <regex>

namespace std {

template <> int collate<char>::_M_compare(const char *one, const char *other) const throw() { return strcmp(one, other); }
template <> size_t collate<char>::_M_transform(char *to, const char *from, size_t room) const throw()
{
    if (room > 0) {
        strncpy(to, from, room - 1);
        to[room - 1] = '\0';
    }
    return strlen(from);
}
template class collate<char>;

/* The headers leave no specialization of these to a library: they have it by their names in GCC's ABI. Each locale has this one. */
const collate<char> &only_collate(const locale &) __asm__("_ZSt9use_facetINSt7__cxx117collateIcEEERKT_RKSt6locale");
const collate<char> &only_collate(const locale &)
{
    static const collate<char> *const only = new collate<char>(1);
    return *only;
}
bool has_collate(const locale &) __asm__("_ZSt9has_facetINSt7__cxx117collateIcEEEbRKSt6locale");
bool has_collate(const locale &) { return true; }

void locale::facet::_S_destroy_c_locale(__c_locale &) {}

/* What is wrong, in the order of regex_constants::error_type. */
static const char *const texts[] = {"no such collating element", "no such class of characters", "an escape that is none", "no such group",
    "brackets that do not match", "parentheses that do not match", "braces that do not match", "a count that is none", "a range that is none",
    "no memory", "a repetition of nothing", "it is too complex", "no memory for a match"};

regex_error::regex_error(regex_constants::error_type code)
    : runtime_error(code < static_cast<int>(sizeof texts / sizeof *texts) ? texts[code] : "it is wrong"), _M_code(code)
{
}
regex_error::~regex_error() noexcept {}

void __throw_regex_error(regex_constants::error_type code)
{
    throw regex_error(code);
}

} // namespace std
