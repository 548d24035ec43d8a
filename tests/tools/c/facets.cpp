// Streams with facets, moved, redirected and derived from, and what they keep: the host tells what has to come.
#include <algorithm>
#include <complex>
#include <cstring>
#include <fstream>
#include <iomanip>
#include <iostream>
#include <iterator>
#include <sstream>
#include <vector>
using namespace std;

struct Commas : numpunct<char> {
    char do_thousands_sep() const override { return ','; }
    string do_grouping() const override { return "\3"; }
    string do_truename() const override { return "yes"; }
};

struct Upper : streambuf {
    streambuf *to;
    explicit Upper(streambuf *it) : to(it) {}
    int overflow(int c) override { return to->sputc(static_cast<char>(toupper(c))); }
};

static int calls = 0;
static void noted(ios_base::event, ios_base &, int) { calls++; }

int main()
{
    locale with(cout.getloc(), new Commas);
    {
        ostringstream out;
        locale before = out.imbue(with);
        out << 1234567 << ' ' << 12345.678 << ' ' << fixed << setprecision(2) << 1234567.891 << boolalpha << ' ' << true << ' '
            << (before == locale::classic());
        cout << out.str() << endl;
        istringstream in("1,234,567 12,34 yes");
        in.imbue(with);
        int a = 0, b = 0;
        bool c = false;
        in >> a >> b;
        cout << a << ' ' << b << ' ' << in.fail() << endl;
        in.clear();
        in >> boolalpha >> c;
        cout << c << ' ' << with.name() << locale::classic().name() << endl;
    }
    Upper upper(cout.rdbuf());
    ostream loud(&upper);
    loud << "loud " << 0x1f << hex << showbase << 0x1f << endl;
    streambuf *old = cout.rdbuf();
    stringstream caught;
    cout.rdbuf(caught.rdbuf());
    cout << "caught" << 5;
    cout.rdbuf(old);
    cout << caught.str() << '\n';
    vector<int> numbers;
    istringstream list("3 1 2");
    copy(istream_iterator<int>(list), istream_iterator<int>(), back_inserter(numbers));
    sort(numbers.begin(), numbers.end());
    copy(numbers.begin(), numbers.end(), ostream_iterator<int>(cout, ","));
    cout << '\n';
    int slot = ios_base::xalloc();
    cout.iword(slot + 20) = 5;
    cout.register_callback(noted, 1);
    ostringstream copied;
    copied.copyfmt(cout);
    cout << copied.iword(slot + 20) << ' ' << calls << ' ' << copied.pword(0) << '\n';
    stringstream one("moved text"), other(std::move(one));
    string word;
    other >> word;
    cout << word << ' ' << other.tellg() << '\n';
    complex<double> z(1, -2);
    cout << setw(12) << z << '|' << quoted("a \"b\"") << '\n';
    int x = 0;
    if (cin >> x)
        cout << "read " << x << ' ' << cin.peek() << '\n';
    cin.ignore(3);
    string line;
    while (getline(cin, line))
        cout << '[' << line << ']';
    cout << cin.eof() << '\n';
    cin.clear();
    clog << "clog " << 1.5 << '\n';
    printf("between %d\n", 1);
    cout << unitbuf << "end" << endl;
    return 0;
}
