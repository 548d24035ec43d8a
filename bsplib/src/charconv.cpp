/* std::to_chars and std::from_chars of numbers with a point, which the headers of GCC's standard library leave to it. */
#include <cerrno>
#include <charconv>
#include <cmath>
#include <cstdio>
#include <cstdlib>
#include <cstring>
#include <limits>
#include <string>

namespace std {

static double read(const char *text, char **end, double) { return strtod(text, end); }
static float read(const char *text, char **end, float) { return strtof(text, end); }

/* The fewest digits that are read as the same number, in a form with an exponent. */
template <class Number> static int shortest(char *to, size_t room, Number value)
{
    int places = 0;
    do {
        snprintf(to, room, "%.*e", places, static_cast<double>(value));
    } while (read(to, nullptr, value) != value && places++ < numeric_limits<Number>::max_digits10);
    return places;
}

static to_chars_result put(char *first, char *last, const char *text)
{
    const size_t size = strlen(text);
    if (static_cast<size_t>(last - first) < size)
        return {last, errc::value_too_large};
    memcpy(first, text, size);
    return {first + size, errc()};
}

/* Hexadecimal digits have no 0x here. */
static to_chars_result put_hex(char *first, char *last, char *text)
{
    if (char *const mark = strstr(text, "0x"))
        memmove(mark, mark + 2, strlen(mark + 2) + 1);
    return put(first, last, text);
}

enum { ROOM = 400 };

template <class Number> static to_chars_result write(char *first, char *last, Number value, chars_format form, bool is_plain)
{
    char text[ROOM];
    if (!isfinite(value))
        return put(first, last, isnan(value) ? (signbit(value) ? "-nan" : "nan") : value < 0 ? "-inf" : "inf");
    if (form == chars_format::hex) {
        snprintf(text, sizeof text, "%a", static_cast<double>(value));
        return put_hex(first, last, text);
    }
    const int places = shortest(text, sizeof text, value), exponent = atoi(strchr(text, 'e') + 1), lowest = exponent - places;
    bool is_fixed = form == chars_format::fixed;
    if (is_plain)
        is_fixed = places == 0 ? lowest >= -3 && lowest <= 4 : lowest >= -(places + 4) && lowest <= 5;
    else if (form == chars_format::general)
        is_fixed = exponent >= -4 && exponent < 6;
    if (is_fixed)
        snprintf(text, sizeof text, "%.*f", lowest < 0 ? -lowest : 0, static_cast<double>(value));
    return put(first, last, text);
}

static to_chars_result write(char *first, char *last, double value, chars_format form, int places)
{
    if (!isfinite(value))
        return write(first, last, value, form, true);
    const char *const forms = form == chars_format::hex ? "%.*a" : form == chars_format::fixed ? "%.*f" : form == chars_format::scientific ? "%.*e" : "%.*g";
    if (places < 0)
        places = 6;
    string text(static_cast<size_t>(places) + ROOM, '\0');
    snprintf(&text[0], text.size(), forms, places, value);
    return form == chars_format::hex ? put_hex(first, last, &text[0]) : put(first, last, text.c_str());
}

to_chars_result to_chars(char *first, char *last, float value) noexcept { return write(first, last, value, chars_format::general, true); }
to_chars_result to_chars(char *first, char *last, double value) noexcept { return write(first, last, value, chars_format::general, true); }
to_chars_result to_chars(char *first, char *last, long double value) noexcept { return to_chars(first, last, static_cast<double>(value)); }
to_chars_result to_chars(char *first, char *last, float value, chars_format form) noexcept { return write(first, last, value, form, false); }
to_chars_result to_chars(char *first, char *last, double value, chars_format form) noexcept { return write(first, last, value, form, false); }
to_chars_result to_chars(char *first, char *last, long double value, chars_format form) noexcept
{
    return to_chars(first, last, static_cast<double>(value), form);
}
to_chars_result to_chars(char *first, char *last, float value, chars_format form, int places) noexcept { return write(first, last, static_cast<double>(value), form, places); }
to_chars_result to_chars(char *first, char *last, double value, chars_format form, int places) noexcept { return write(first, last, value, form, places); }
to_chars_result to_chars(char *first, char *last, long double value, chars_format form, int places) noexcept
{
    return write(first, last, static_cast<double>(value), form, places);
}

static bool is_digit(char it, bool is_hex)
{
    return (it >= '0' && it <= '9') || (is_hex && ((it >= 'a' && it <= 'f') || (it >= 'A' && it <= 'F')));
}

/* The end of a number of this form, or the begin where there is none. */
static const char *number_end(const char *const begin, const char *const last, chars_format form)
{
    const bool is_hex = form == chars_format::hex;
    const char *at = begin;
    bool has_digits = false;
    for (bool has_point = false; at < last && (is_digit(*at, is_hex) || (*at == '.' && !has_point)); at++)
        (*at == '.' ? has_point : has_digits) = true;
    if (!has_digits || form == chars_format::fixed)
        return has_digits ? at : begin;
    if (at < last && (is_hex ? *at == 'p' || *at == 'P' : *at == 'e' || *at == 'E')) {
        const char *exponent = at + 1;
        if (exponent < last && (*exponent == '+' || *exponent == '-'))
            exponent++;
        if (exponent < last && is_digit(*exponent, false)) {
            for (at = exponent; at < last && is_digit(*at, false); at++) {
            }
            return at;
        }
    }
    return form == chars_format::scientific ? begin : at;
}

template <class Number> static from_chars_result parse(const char *first, const char *last, Number &value, chars_format form)
{
    const char *const begin = first + (first < last && *first == '-'), *end = number_end(begin, last, form);
    if (end == begin && begin < last && strchr("iInN", *begin) != nullptr) {
        const string word(begin, static_cast<size_t>(last - begin));
        char *stop;
        read(word.c_str(), &stop, value);
        end += stop - word.c_str();
    }
    if (end == begin)
        return {first, errc::invalid_argument};
    string text(first, begin);
    text += form == chars_format::hex && is_digit(*begin == '.' ? '0' : *begin, true) ? "0x" : "";
    text.append(begin, end);
    errno = 0;
    const Number found = read(text.c_str(), nullptr, value);
    if (errno == ERANGE)
        return {end, errc::result_out_of_range};
    value = found;
    return {end, errc()};
}

from_chars_result from_chars(const char *first, const char *last, float &value, chars_format form) noexcept { return parse(first, last, value, form); }
from_chars_result from_chars(const char *first, const char *last, double &value, chars_format form) noexcept { return parse(first, last, value, form); }
from_chars_result from_chars(const char *first, const char *last, long double &value, chars_format form) noexcept
{
    double found = 0;
    const from_chars_result result = parse(first, last, found, form);
    if (result.ec == errc())
        value = found;
    return result;
}

} // namespace std
