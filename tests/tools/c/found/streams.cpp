// A program in C++ with the standard streams, which rank 0 reads and all ranks write.
#include <bitset>
#include <iomanip>
#include <iostream>
#include <sstream>
#include <string>

// As a header of C is included that knows nothing of C++.
extern "C" {
#include "bsp.h"
}

struct Point {
    int x, y;
};

static std::ostream &operator<<(std::ostream &to, const Point &point)
{
    return to << '(' << point.x << ", " << point.y << ')';
}

struct Early {
    Early() { std::cout << "early" << std::endl; }
};

static Early early;

// A number that comes from a text, with whether it did.
template <class Number> static Number from(const char *text)
{
    Number number = 7;
    std::istringstream stream(text);
    std::cout << (stream >> number ? '+' : '-');
    return number;
}

// Numbers that do not fit, places in a text, and states.
static void edges()
{
    using namespace std;
    string line = "before";
    stringstream both("12 true");
    bool is_so = false;
    int number;
    cout << noboolalpha << defaultfloat << setfill(' ') << from<short>("99999") << ' ' << from<int>("-99999999999") << ' ' << from<unsigned>("4294967296") << ' '
         << from<bool>("2") << ' ' << from<double>("1e999") << ' ' << from<double>("inf") << '\n';
    both >> number >> boolalpha >> is_so;
    cout << both.tellg() << ' ' << is_so << ' ' << both.eof();
    both.clear();
    both.seekg(3);
    both.seekp(0, ios::end);
    both << "er " << showpos << 5;
    cout << ' ' << both.tellp() << ' ' << getline(both, line, ' ').good() << line << both.peek() << '\n';
    both.setstate(ios::failbit);
    getline(both, line);
    cout << line << '|' << setw(9) << internal << showpos << hexfloat << 1.5 << '|' << hex << showbase << setw(8) << 255 << '\n';
}

int main()
{
    using namespace std;
    int count = 0, sum = 0, number;
    double factor;
    string word, line;
    bsp_begin(bsp_nprocs());
    cin >> count >> factor >> word;
    cin.ignore(100, '\n');
    getline(cin, line);
    while (cin >> number)
        sum += number;
    cout << bsp_pid() << ": " << count << ' ' << factor << " [" << word << "] [" << line << "] " << sum << boolalpha << ' ' << cin.eof() << '\n';
    if (bsp_pid() == 0) {
        cout << fixed << setprecision(3) << factor << setw(8) << 2.5 << '|' << left << setw(5) << "ab" << '|' << right << setfill('*') << setw(5)
             << 42 << ' ' << Point{1, 2} << endl;
        bitset<4> bits;
        istringstream(" 11012 x") >> bits >> number;
        cout << setw(6) << bits << ' ' << number << ' ' << ~bits << endl;
        edges();
        cerr << hex << 255 << dec << ' ' << -1 << ' ' << defaultfloat << 1e10 << ' ' << static_cast<unsigned char>('x') << '\n';
    }
    bsp_end();
    return 0;
}
