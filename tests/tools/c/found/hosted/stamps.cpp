// Lines of a log: times are read and written by manipulators, and durations are counted in several units.
#include <bsp.h>
#include <chrono>
#include <ctime>
#include <iomanip>
#include <iostream>
#include <limits>
#include <locale>
#include <sstream>
#include <string>

using namespace std;
using namespace std::chrono;

int main()
{
    bsp_begin(bsp_nprocs());
    const char* lines[] = {"2021-03-04 05:06:07 start", "2022-12-31 23:59:59 end of it", "1999-01-01 00:00:00 old", "not a time"};
    istringstream in(lines[bsp_pid() % 4]);
    in.imbue(locale::classic());
    tm when = {};
    in >> get_time(&when, "%Y-%m-%d %H:%M:%S");
    if (in.fail()) {
        in.clear();
        in.ignore(numeric_limits<streamsize>::max(), '\n');
        cout << "rank " << bsp_pid() << ": no time" << endl;
    } else {
        string rest;
        getline(in >> ws, rest);
        time_t seconds_since = timegm(&when);
        cout << put_time(gmtime(&seconds_since), "%a %d %b %Y %T") << " " << seconds_since << " [" << rest << "]" << endl;
    }
    system_clock::time_point point = system_clock::from_time_t(86400 * 366);
    auto later = point + hours(25) + minutes(61) + milliseconds(1500);
    time_t t = system_clock::to_time_t(later);
    cout << put_time(gmtime(&t), "%F %R") << " " << duration_cast<seconds>(later - point).count() << " s, "
         << duration<double, ratio<60>>(later - point).count() << " min" << endl;
    auto begin = high_resolution_clock::now();
    volatile double sum = 0;
    for (int i = 1; i < 2000; i++)
        sum = sum + 1.0 / i;
    duration<double> took = high_resolution_clock::now() - begin;
    cout << fixed << setprecision(6) << sum << (took.count() > 0 ? " in some time" : " in no time") << defaultfloat << " " << hex << showbase << 255 << oct << " " << 8
         << dec << " " << setw(6) << left << 42 << "|" << internal << setw(8) << setfill('0') << -1.5 << endl;
    bsp_end();
}
