/* Times: gmtime, mktime, strftime, asctime, difftime and their like, where the zone is UTC. A call is the function and its operands; a
   broken-down time is its nine numbers. */
#include <time.h>

#include "calls.h"

static struct tm read_tm(void)
{
    struct tm it;
    memset(&it, 0, sizeof it);
    it.tm_sec = (int)read_number();
    it.tm_min = (int)read_number();
    it.tm_hour = (int)read_number();
    it.tm_mday = (int)read_number();
    it.tm_mon = (int)read_number();
    it.tm_year = (int)read_number();
    it.tm_wday = (int)read_number();
    it.tm_yday = (int)read_number();
    it.tm_isdst = (int)read_number();
    return it;
}

static void say_tm(const struct tm *it)
{
    if (it == NULL) {
        say("NULL");
        return;
    }
    say_number(it->tm_sec);
    say_number(it->tm_min);
    say_number(it->tm_hour);
    say_number(it->tm_mday);
    say_number(it->tm_mon);
    say_number(it->tm_year);
    say_number(it->tm_wday);
    say_number(it->tm_yday);
    say_number(it->tm_isdst);
}

static void format(void)
{
    static char room[2100];
    size_t size = (size_t)read_number(), count;
    const char *form = read_text();
    struct tm it = read_tm();
    memset(room, 0x55, sizeof room);
    count = strftime(room, size, form, &it);
    say_number((int64_t)count);
    if (count > 0)
        say_bytes(room, count + 1);
    for (size_t i = size; i < sizeof room; i++)
        if (room[i] != 0x55) {
            say("touched");
            break;
        }
}

static void make_call(const char *function)
{
    struct tm it;
    time_t time;
    if (strcmp(function, "strftime") == 0) {
        format();
        return;
    }
    if (strcmp(function, "mktime") == 0) {
        it = read_tm();
        time = mktime(&it);
        say_number((int64_t)time);
        say_tm(&it);
        return;
    }
    if (strncmp(function, "asctime", 7) == 0) {
        char room[64];
        it = read_tm();
        say_text(function[7] == '_' ? asctime_r(&it, room) : asctime(&it));
        return;
    }
    time = (time_t)read_number();
    if (strcmp(function, "gmtime") == 0)
        say_tm(gmtime(&time));
    else if (strcmp(function, "gmtime_r") == 0)
        say_tm(gmtime_r(&time, &it));
    else if (strcmp(function, "localtime") == 0)
        say_tm(localtime(&time));
    else if (strcmp(function, "localtime_r") == 0)
        say_tm(localtime_r(&time, &it));
    else if (strcmp(function, "ctime") == 0)
        say_text(ctime(&time));
    else
        say_real(difftime(time, (time_t)read_number()));
}

int main(void)
{
    while (read_call()) {
        make_call(read_word());
        end_call();
    }
    return 0;
}
