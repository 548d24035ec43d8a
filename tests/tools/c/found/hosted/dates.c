/* Days of a calendar, which processes share: broken-down times, their normal form and their names. */
#include <bsp.h>
#include <stdio.h>
#include <stdlib.h>
#include <string.h>
#include <time.h>

static int is_leap(int year) { return (year % 4 == 0 && year % 100 != 0) || year % 400 == 0; }

int main(void)
{
    char text[80], *zone = "TZ=UTC";
    time_t when;
    struct tm *tm, given, copy;
    int i, fridays = 0, total[16];

    bsp_begin(bsp_nprocs());
    putenv(zone);
    tzset();
    bsp_push_reg(total, sizeof(total));
    bsp_sync();
    for (i = 1900 + bsp_pid(); i < 2100; i += bsp_nprocs()) {
        int month;
        for (month = 0; month < 12; month++) {
            memset(&given, 0, sizeof(given));
            given.tm_year = i - 1900;
            given.tm_mon = month;
            given.tm_mday = 13;
            given.tm_isdst = -1;
            if (mktime(&given) == (time_t)-1 && i > 1970)
                perror("mktime");
            fridays += given.tm_wday == 5;
        }
    }
    bsp_put(0, &fridays, total, bsp_pid() * sizeof(int), sizeof(int));
    bsp_sync();
    when = 1000000000 + bsp_pid() * 100000000L;
    tm = gmtime(&when);
    strftime(text, sizeof(text), "%A, %d %B %Y, %I:%M:%S %p, day %j, week %U of %y", tm);
    puts(text);
    copy = *tm;
    copy.tm_mday += 400;
    copy.tm_hour -= 50;
    double days = difftime(mktime(&copy), when) / 86400;
    printf("%.3f days later: %s", days, asctime(&copy));
    printf("%s", ctime(&when));
    tm = localtime(&when);
    printf("%d %d\n", tm->tm_hour, is_leap(tm->tm_year + 1900));
    if (bsp_pid() == 0) {
        for (i = 1; i < bsp_nprocs(); i++)
            total[0] += total[i];
        printf("%d Fridays are a thirteenth\n", total[0]);
    }
    bsp_end();
    return 0;
}
