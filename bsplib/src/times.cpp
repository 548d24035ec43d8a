/* The functions that std::put_time and std::get_time need to be linked: names and formats of times in the locale C. */
#include <ctime>
#include <locale>

namespace std {

template <> void __timepunct<char>::_M_put(char *to, size_t room, const char *form, const tm *when) const throw()
{
    if (strftime(to, room, form, when) == 0)
        to[0] = '\0';
}

template <> void __timepunct<char>::_M_initialize_timepunct(__c_locale)
{
    if (_M_data == nullptr)
        _M_data = new __timepunct_cache<char>;
    __timepunct_cache<char> &it = *_M_data;
    it._M_date_format = it._M_date_era_format = "%m/%d/%y";
    it._M_time_format = it._M_time_era_format = "%H:%M:%S";
    it._M_date_time_format = it._M_date_time_era_format = "%a %b %e %H:%M:%S %Y";
    it._M_am = "AM";
    it._M_pm = "PM";
    it._M_am_pm_format = "%I:%M:%S %p";
    static const char *const days[] = {"Sunday", "Monday", "Tuesday", "Wednesday", "Thursday", "Friday", "Saturday"};
    static const char *const short_days[] = {"Sun", "Mon", "Tue", "Wed", "Thu", "Fri", "Sat"};
    static const char *const months[] = {"January", "February", "March", "April", "May", "June", "July", "August", "September", "October",
        "November", "December"};
    static const char *const short_months[] = {"Jan", "Feb", "Mar", "Apr", "May", "Jun", "Jul", "Aug", "Sep", "Oct", "Nov", "Dec"};
    const char **names[] = {&it._M_day1, &it._M_aday1, &it._M_month01, &it._M_amonth01};
    const char *const *const given[] = {days, short_days, months, short_months};
    for (int kind = 0; kind < 4; kind++)
        for (int i = 0; i < (kind < 2 ? 7 : 12); i++)
            names[kind][i] = given[kind][i];
}

const char *locale::facet::_S_get_c_name() throw() { return "C"; }

template <> const char *__timepunct_cache<char>::_S_timezones[14] = {"GMT", "HST", "AKST", "PST", "MST", "CST", "EST", "AST", "NST", "CET",
    "IST", "EET", "CST", "JST"};

/* The days of a year before each month. */
static const int days_before[] = {0, 31, 59, 90, 120, 151, 181, 212, 243, 273, 304, 334, 365};

static int day_of_year(int year, int month, int day)
{
    const bool is_leap = (year % 4 == 0 && year % 100 != 0) || year % 400 == 0;
    return days_before[month] + (is_leap && month > 1) + day - 1;
}

static int weekday_of_first(int year)
{
    const int before = year - 1;
    return (before + before / 4 - before / 100 + before / 400 + 1) % 7;
}

/* What follows of the parts of a time that were read: the hour of the afternoon, the century, and days of the week, the month and the year. */
void __time_get_state::_M_finalize_state(tm *to)
{
    if (_M_have_I && _M_is_pm)
        to->tm_hour += 12;
    if (_M_have_century)
        to->tm_year = (_M_want_century ? to->tm_year % 100 : 0) + (_M_century - 19) * 100;
    const int year = to->tm_year + 1900, first = weekday_of_first(year);
    if ((_M_have_uweek || _M_have_wweek) && _M_have_wday && !_M_have_yday) {
        const int start = _M_have_uweek ? 0 : 1;
        to->tm_yday = (7 - (first - start)) % 7 + (static_cast<int>(_M_week_no) - 1) * 7 + (to->tm_wday - start + 7) % 7;
        _M_have_yday = 1;
    }
    if (_M_want_xday && _M_have_yday && !(_M_have_mon && _M_have_mday)) {
        int month = 0;
        while (month < 11 && day_of_year(year, month + 1, 1) <= to->tm_yday)
            month++;
        to->tm_mon = month;
        to->tm_mday = to->tm_yday - day_of_year(year, month, 1) + 1;
    } else if (_M_want_xday && !_M_have_yday) {
        to->tm_yday = day_of_year(year, to->tm_mon, to->tm_mday);
    }
    if (_M_want_xday && !_M_have_wday)
        to->tm_wday = (first + to->tm_yday) % 7;
}

template class __timepunct<char>;
template class time_put<char>;
template class time_get<char>;

/* The headers leave no specialization of these to a library: they have it by their names in GCC's ABI. Each locale has this one. */
#define ONLY(kind, mangled, name) \
    const kind &only_##name(const locale &) __asm__("_ZSt9use_facetI" mangled "ERKT_RKSt6locale"); \
    const kind &only_##name(const locale &) \
    { \
        static const kind *const only = new kind(1); \
        return *only; \
    } \
    bool has_##name(const locale &) __asm__("_ZSt9has_facetI" mangled "EbRKSt6locale"); \
    bool has_##name(const locale &) { return true; }
ONLY(__timepunct<char>, "St11__timepunctIcE", names)
ONLY(time_put<char>, "St8time_putIcSt19ostreambuf_iteratorIcSt11char_traitsIcEEE", put)
ONLY(time_get<char>, "NSt7__cxx118time_getIcSt19istreambuf_iteratorIcSt11char_traitsIcEEEE", get)

} // namespace std
