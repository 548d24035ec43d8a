/* The locale of C++'s streams, which is that of C, and how numbers are read and written in it. The headers of GCC's standard library have it
   in a library that is for the host. Names and members are those of its ABI, which stays the same from version to version. */
#include <cstdlib>
#include <cstring>
#include <istream>
#include <limits>
#include <new>
#include <ostream>

namespace std {

/* Room for a value that is made where it is first wanted, and never unmade. */
template <class Value> struct Place {
    alignas(Value) char bytes[sizeof(Value)];

    template <class... Operands> Value *make(Operands... operands) { return new (bytes) Value(operands...); }
};

/* Characters. */

struct Masks {
    ctype_base::mask of[ctype<char>::table_size];

    static constexpr bool is_in(int byte, int first, int last) { return first <= byte && byte <= last; }
    static constexpr int mask_of(int byte)
    {
        bool is_upper = is_in(byte, 'A', 'Z'), is_lower = is_in(byte, 'a', 'z'), is_digit = is_in(byte, '0', '9');
        bool is_print = is_in(byte, ' ', '~'), is_blank = byte == ' ' || byte == '\t';
        bool is_hex = is_digit || is_in(byte, 'A', 'F') || is_in(byte, 'a', 'f');
        bool is_punct = is_print && byte != ' ' && !is_upper && !is_lower && !is_digit;
        return (is_upper ? ctype_base::upper : 0) | (is_lower ? ctype_base::lower : 0) | (is_upper || is_lower ? ctype_base::alpha : 0) |
               (is_digit ? ctype_base::digit : 0) | (is_hex ? ctype_base::xdigit : 0) | (is_print ? ctype_base::print : 0) |
               (is_blank || is_in(byte, '\t', '\r') ? ctype_base::space : 0) | (is_punct ? ctype_base::punct : 0) |
               (is_in(byte, 0, 31) || byte == 127 ? ctype_base::cntrl : 0) | (is_blank ? ctype_base::blank : 0);
    }
    constexpr Masks() : of()
    {
        for (size_t i = 0; i < ctype<char>::table_size; i++)
            of[i] = static_cast<ctype_base::mask>(mask_of(static_cast<int>(i)));
    }
};
static constexpr Masks masks;

locale::id ctype<char>::id;
const size_t ctype<char>::table_size;

const ctype_base::mask *ctype<char>::classic_table() throw() { return masks.of; }

ctype<char>::ctype(const mask *table, bool is_owned, size_t refs)
    : facet(refs), _M_c_locale_ctype(nullptr), _M_del(table != nullptr && is_owned), _M_toupper(nullptr), _M_tolower(nullptr),
      _M_table(table != nullptr ? table : classic_table()), _M_widen_ok(0), _M_narrow_ok(0)
{
    memset(_M_widen, 0, sizeof _M_widen);
    memset(_M_narrow, 0, sizeof _M_narrow);
}
ctype<char>::ctype(__c_locale, const mask *table, bool is_owned, size_t refs) : ctype(table, is_owned, refs) {}
ctype<char>::~ctype()
{
    if (_M_del)
        delete[] _M_table;
}

char ctype<char>::do_toupper(char byte) const { return 'a' <= byte && byte <= 'z' ? static_cast<char>(byte - 'a' + 'A') : byte; }
char ctype<char>::do_tolower(char byte) const { return 'A' <= byte && byte <= 'Z' ? static_cast<char>(byte - 'A' + 'a') : byte; }
const char *ctype<char>::do_toupper(char *at, const char *end) const
{
    for (; at < end; at++)
        *at = do_toupper(*at);
    return end;
}
const char *ctype<char>::do_tolower(char *at, const char *end) const
{
    for (; at < end; at++)
        *at = do_tolower(*at);
    return end;
}

/* Each character is widened to itself, but by a class that a program derives. */
void ctype<char>::_M_widen_init() const
{
    char bytes[sizeof _M_widen];
    for (size_t i = 0; i < sizeof bytes; i++)
        bytes[i] = static_cast<char>(i);
    do_widen(bytes, bytes + sizeof bytes, _M_widen);
    _M_widen_ok = memcmp(bytes, _M_widen, sizeof bytes) == 0 ? 1 : 2;
}
void ctype<char>::_M_narrow_init() const
{
    char bytes[sizeof _M_narrow];
    for (size_t i = 0; i < sizeof bytes; i++)
        bytes[i] = static_cast<char>(i);
    do_narrow(bytes, bytes + sizeof bytes, 0, _M_narrow);
    _M_narrow_ok = memcmp(bytes, _M_narrow, sizeof bytes) == 0 ? 1 : 2;
}

/* Numbers. */

const char *__num_base::_S_atoms_out = "-+xX0123456789abcdef0123456789ABCDEF";
const char *__num_base::_S_atoms_in = "-+xX0123456789abcdefABCDEF";

void __num_base::_S_format_float(const ios_base &how, char *to, char size) throw()
{
    ios_base::fmtflags kind = how.flags() & ios_base::floatfield;
    bool is_hex = kind == (ios_base::fixed | ios_base::scientific), is_upper = (how.flags() & ios_base::uppercase) != 0;
    *to++ = '%';
    if (how.flags() & ios_base::showpos)
        *to++ = '+';
    if (how.flags() & ios_base::showpoint)
        *to++ = '#';
    if (!is_hex) {
        *to++ = '.';
        *to++ = '*';
    }
    if (size != 0)
        *to++ = size;
    if (kind == ios_base::fixed)
        *to++ = 'f';
    else
        *to++ = (is_upper ? "AEG" : "aeg")[is_hex ? 0 : kind == ios_base::scientific ? 1 : 2];
    *to = '\0';
}

/* What a text of just a number comes to: 0 where it is none, and the largest number of that sign where it is larger. */
template <class Number> static void convert(const char *text, Number read, const char *end, Number &to, ios_base::iostate &state)
{
    to = read;
    if (end == text || *end != '\0')
        to = 0;
    else if (read > numeric_limits<Number>::max())
        to = numeric_limits<Number>::max();
    else if (read < numeric_limits<Number>::lowest())
        to = numeric_limits<Number>::lowest();
    else
        return;
    state = ios_base::failbit;
}
template <> void __convert_to_v(const char *text, float &to, ios_base::iostate &state, const __c_locale &) throw()
{
    char *end;
    float read = strtof(text, &end);
    convert(text, read, end, to, state);
}
template <> void __convert_to_v(const char *text, double &to, ios_base::iostate &state, const __c_locale &) throw()
{
    char *end;
    double read = strtod(text, &end);
    convert(text, read, end, to, state);
}
template <> void __convert_to_v(const char *text, long double &to, ios_base::iostate &state, const __c_locale &) throw()
{
    char *end;
    long double read = strtold(text, &end);
    convert(text, read, end, to, state);
}

template <> void numpunct<char>::_M_initialize_numpunct(__c_locale)
{
    if (_M_data == nullptr)
        _M_data = new __numpunct_cache<char>;
    _M_data->_M_grouping = "";
    _M_data->_M_decimal_point = '.';
    _M_data->_M_thousands_sep = ',';
    memcpy(_M_data->_M_atoms_out, __num_base::_S_atoms_out, sizeof _M_data->_M_atoms_out);
    memcpy(_M_data->_M_atoms_in, __num_base::_S_atoms_in, sizeof _M_data->_M_atoms_in);
    _M_data->_M_truename = "true";
    _M_data->_M_truename_size = 4;
    _M_data->_M_falsename = "false";
    _M_data->_M_falsename_size = 5;
}
template <> numpunct<char>::~numpunct() { delete _M_data; }

bool __verify_grouping(const char *grouping, size_t size, const string &found) throw()
{
    const size_t last = found.size() - 1, least = last < size - 1 ? last : size - 1;
    size_t i = last;
    bool is_right = true;
    /* Parsed groups from the right, but for the first one, have to be just of the sizes that are asked for. */
    for (size_t j = 0; j < least && is_right; j++, i--)
        is_right = found[i] == grouping[j];
    for (; i > 0 && is_right; i--)
        is_right = found[i] == grouping[least];
    if (static_cast<signed char>(grouping[least]) > 0 && grouping[least] != numeric_limits<char>::max())
        is_right &= found[0] <= grouping[least];
    return is_right;
}

/* Locales. */

enum { MOST_CATEGORIES = 6 };

static Place<locale::_Impl> classic_place;
static Place<locale> classic_locale;

locale::_Impl *locale::_S_classic = nullptr;
locale::_Impl *locale::_S_global = nullptr;
_Atomic_word locale::id::_S_refcount = 0;
const locale::category locale::none;
const locale::category locale::ctype;
const locale::category locale::numeric;
const locale::category locale::all;

locale::facet::~facet() {}
__c_locale locale::facet::_S_get_c_locale() { return nullptr; }

size_t locale::id::_M_id() const throw()
{
    if (_M_index == 0)
        _M_index = static_cast<size_t>(++_S_refcount);
    return _M_index - 1;
}

/* The facets of a locale, and what is kept of them, by the numbers of their kinds. */
enum { FIRST_FACETS = 4 };
static const locale::facet *first_facets[FIRST_FACETS], *first_caches[FIRST_FACETS];
static char first_name[] = "C", *first_names[MOST_CATEGORIES] = {first_name};

static Place<std::ctype<char>> characters;
static Place<__numpunct_cache<char>> cache;
static Place<numpunct<char>> points;
static Place<num_get<char>> readers;
static Place<num_put<char>> writers;

locale::_Impl::_Impl(size_t refs) throw()
    : _M_refcount(static_cast<_Atomic_word>(refs)), _M_facets(first_facets), _M_facets_size(FIRST_FACETS), _M_caches(first_caches),
      _M_names(first_names)
{
    __numpunct_cache<char> *kept = cache.make(1u);
    _M_init_facet(characters.make(nullptr, false, 1u));
    _M_init_facet(points.make(kept, 1u));
    _M_init_facet(readers.make(1u));
    _M_init_facet(writers.make(1u));
    _M_install_cache(kept, numpunct<char>::id._M_id());
}

locale::_Impl::_Impl(const _Impl &other, size_t refs)
    : _M_refcount(static_cast<_Atomic_word>(refs)), _M_facets(new const facet *[other._M_facets_size]), _M_facets_size(other._M_facets_size),
      _M_caches(new const facet *[other._M_facets_size]), _M_names(new char *[MOST_CATEGORIES]())
{
    for (size_t i = 0; i < _M_facets_size; i++) {
        _M_facets[i] = other._M_facets[i];
        _M_caches[i] = other._M_caches[i];
        if (_M_facets[i] != nullptr)
            _M_facets[i]->_M_add_reference();
        if (_M_caches[i] != nullptr)
            _M_caches[i]->_M_add_reference();
    }
    if (other._M_names[0] != nullptr)
        _M_names[0] = strcpy(new char[strlen(other._M_names[0]) + 1], other._M_names[0]);
}

/* The classic one is never unmade. */
locale::_Impl::~_Impl() throw()
{
    for (size_t i = 0; i < _M_facets_size; i++) {
        if (_M_facets[i] != nullptr)
            _M_facets[i]->_M_remove_reference();
        if (_M_caches[i] != nullptr)
            _M_caches[i]->_M_remove_reference();
    }
    delete[] _M_facets;
    delete[] _M_caches;
    delete[] _M_names[0];
    delete[] _M_names;
}

template <class Value> static Value *enlarged(Value *from, size_t size, size_t wanted)
{
    Value *to = new Value[wanted]();
    memcpy(to, from, size * sizeof *from);
    delete[] from;
    return to;
}

/* A facet takes the place of another one of its kind, and nothing that was kept is true any more. */
void locale::_Impl::_M_install_facet(const locale::id *kind, const facet *it)
{
    size_t index = kind->_M_id();
    if (it == nullptr)
        return;
    if (index >= _M_facets_size) {
        _M_facets = enlarged(_M_facets, _M_facets_size, index + 1);
        _M_caches = enlarged(_M_caches, _M_facets_size, index + 1);
        _M_facets_size = index + 1;
    }
    it->_M_add_reference();
    if (_M_facets[index] != nullptr)
        _M_facets[index]->_M_remove_reference();
    _M_facets[index] = it;
    for (size_t i = 0; i < _M_facets_size; i++) {
        if (_M_caches[i] != nullptr)
            _M_caches[i]->_M_remove_reference();
        _M_caches[i] = nullptr;
    }
}

void locale::_Impl::_M_install_cache(const facet *kept, size_t index)
{
    kept->_M_add_reference();
    _M_caches[index] = kept;
}

void locale::_Impl::_M_replace_facet(const _Impl *other, const locale::id *kind)
{
    size_t index = kind->_M_id();
    if (index >= other->_M_facets_size || other->_M_facets[index] == nullptr)
        __throw_runtime_error("locale::_Impl::_M_replace_facet");
    _M_install_facet(kind, other->_M_facets[index]);
}

void locale::_S_initialize()
{
    if (_S_classic == nullptr) {
        _S_classic = new (classic_place.bytes) _Impl(2);
        _S_global = _S_classic;
        new (classic_locale.bytes) locale(_S_classic);
    }
}

const locale &locale::classic()
{
    _S_initialize();
    return reinterpret_cast<const locale &>(classic_locale);
}

locale::locale(_Impl *it) throw() : _M_impl(it) {}
locale::locale() throw()
{
    _S_initialize();
    _M_impl = _S_global;
    _M_impl->_M_add_reference();
}
locale::locale(const locale &other) throw() : _M_impl(other._M_impl) { _M_impl->_M_add_reference(); }
locale::locale(const char *name)
{
    if (name == nullptr || (*name != '\0' && strcmp(name, "C") != 0 && strcmp(name, "POSIX") != 0))
        __throw_runtime_error("std::locale: there is one locale, that of C");
    _S_initialize();
    _M_impl = _S_classic;
    _M_impl->_M_add_reference();
}
locale::~locale() throw() { _M_impl->_M_remove_reference(); }
const locale &locale::operator=(const locale &other) throw()
{
    other._M_impl->_M_add_reference();
    _M_impl->_M_remove_reference();
    _M_impl = other._M_impl;
    return *this;
}
string locale::name() const { return _M_impl->_M_names[0] != nullptr ? _M_impl->_M_names[0] : "*"; }
bool locale::operator==(const locale &other) const throw()
{
    const char *name = _M_impl->_M_names[0], *name_there = other._M_impl->_M_names[0];
    return _M_impl == other._M_impl || (name != nullptr && name_there != nullptr && strcmp(name, name_there) == 0);
}
locale locale::global(const locale &wanted)
{
    _S_initialize();
    _Impl *before = _S_global;
    wanted._M_impl->_M_add_reference();
    _S_global = wanted._M_impl;
    return locale(before);
}

template class numpunct<char>;
template struct __numpunct_cache<char>;
template class num_get<char>;
template class num_put<char>;
template const std::ctype<char> &use_facet(const locale &);
template const numpunct<char> &use_facet(const locale &);
template const num_put<char> &use_facet(const locale &);
template const num_get<char> &use_facet(const locale &);
template bool has_facet<std::ctype<char>>(const locale &) throw();
template bool has_facet<numpunct<char>>(const locale &) throw();
template bool has_facet<num_put<char>>(const locale &) throw();
template bool has_facet<num_get<char>>(const locale &) throw();

} // namespace std
