// Makes what its input says with streams of C++, each line with one of its own, and tells what comes of each step. streams.py writes these
// lines, and has the host do the same.
#include <bitset>
#include <complex>
#include <cstdint>
#include <cstdio>
#include <cstring>
#include <fstream>
#include <iomanip>
#include <iostream>
#include <sstream>
#include <string>

using namespace std;

// A text in which % and two hexadecimal digits stand for a byte.
static string unquoted(const string &text)
{
    string found;
    for (size_t i = 0; i < text.size(); i++)
        if (text[i] == '%') {
            found += static_cast<char>(stoi(text.substr(i + 1, 2), nullptr, 16));
            i += 2;
        } else
            found += text[i];
    return found;
}

static void tell(const string &text)
{
    for (unsigned char byte : text)
        if (byte > 32 && byte < 127 && byte != '%')
            putchar(byte);
        else
            printf("%%%02x", byte);
}

struct Change {
    const char *name;
    ios_base &(*make)(ios_base &);
};
static const Change changes[] = {
    {"boolalpha", boolalpha}, {"noboolalpha", noboolalpha}, {"showbase", showbase}, {"noshowbase", noshowbase}, {"showpoint", showpoint},
    {"noshowpoint", noshowpoint}, {"showpos", showpos}, {"noshowpos", noshowpos}, {"skipws", skipws}, {"noskipws", noskipws},
    {"uppercase", uppercase}, {"nouppercase", nouppercase}, {"unitbuf", unitbuf}, {"internal", internal}, {"left", left}, {"right", right},
    {"dec", dec}, {"hex", hex}, {"oct", oct}, {"fixed", fixed}, {"scientific", scientific}, {"hexfloat", hexfloat},
    {"defaultfloat", defaultfloat},
};

// The bits of a value, which are the same where its bytes are.
template <class Value> static void tell_value(const Value &value)
{
    uint64_t bits = 0;
    memcpy(&bits, &value, sizeof value);
    printf(" %llx", static_cast<unsigned long long>(bits));
}
template <> void tell_value(const string &value)
{
    putchar(' ');
    tell(value);
}

template <class Value> static void read(istream &from, Value value)
{
    from >> value;
    tell_value(value);
}

template <class Value> static void write(ostream &to, istream &words)
{
    uint64_t bits;
    Value value;
    words >> hex >> bits >> dec;
    memcpy(&value, &bits, sizeof value);
    to << value;
}

static bool writes(iostream &it, const string &word, istream &words)
{
    string text;
    if (word == "<<short")
        write<short>(it, words);
    else if (word == "<<ushort")
        write<unsigned short>(it, words);
    else if (word == "<<int")
        write<int>(it, words);
    else if (word == "<<unsigned")
        write<unsigned>(it, words);
    else if (word == "<<llong")
        write<long long>(it, words);
    else if (word == "<<ullong")
        write<unsigned long long>(it, words);
    else if (word == "<<float")
        write<float>(it, words);
    else if (word == "<<double")
        write<double>(it, words);
    else if (word == "<<char")
        write<char>(it, words);
    else if (word == "<<bool") {
        words >> text;
        it << (text == "1");
    } else if (word == "<<pointer") {
        unsigned place;
        words >> place;
        it << reinterpret_cast<const void *>(static_cast<uintptr_t>(place));
    } else if (word == "<<complex") {
        double one, other;
        words >> one >> other;
        it << complex<double>(one, other);
    } else if (word == "<<bitset") {
        unsigned bits;
        words >> bits;
        it << bitset<7>(bits);
    } else if (word == "<<string") {
        words >> text;
        it << unquoted(text);
    } else if (word == "<<chars") {
        words >> text;
        it << unquoted(text).c_str();
    } else if (word == "put") {
        words >> text;
        it.put(unquoted(text)[0]);
    } else if (word == "write") {
        words >> text;
        text = unquoted(text);
        it.write(text.data(), static_cast<streamsize>(text.size()));
    } else if (word == "endl")
        it << endl;
    else if (word == "ends")
        it << ends;
    else if (word == "flush")
        it << flush;
    else
        return false;
    return true;
}

static bool reads(iostream &it, const string &word, istream &words)
{
    char room[12] = "..........";
    string text = "before";
    int number = 0;
    if (word == ">>short")
        read(it, short(7));
    else if (word == ">>ushort")
        read(it, static_cast<unsigned short>(7));
    else if (word == ">>int")
        read(it, 7);
    else if (word == ">>unsigned")
        read(it, 7u);
    else if (word == ">>llong")
        read(it, 7LL);
    else if (word == ">>ullong")
        read(it, 7ULL);
    else if (word == ">>float")
        read(it, 7.0f);
    else if (word == ">>double")
        read(it, 7.0);
    else if (word == ">>bool")
        read(it, false);
    else if (word == ">>char")
        read(it, '7');
    else if (word == ">>uchar")
        read(it, static_cast<unsigned char>('7'));
    else if (word == ">>string")
        read(it, text);
    else if (word == ">>complex") {
        complex<double> value(7, 7);
        it >> value;
        tell_value(value.real());
        tell_value(value.imag());
    } else if (word == ">>bitset") {
        bitset<7> value(5);
        it >> value;
        printf(" %lu", value.to_ulong());
    } else if (word == ">>chars") {
        it >> room;
        tell_value(string(room, sizeof room));
    } else if (word == ">>ws")
        it >> ws;
    else if (word == "get")
        printf(" %d", it.get());
    else if (word == "getc") {
        char byte = '7';
        it.get(byte);
        tell_value(byte);
    } else if (word == "gets" || word == "getline") {
        words >> number >> text;
        if (word == "gets")
            it.get(room, number, unquoted(text)[0]);
        else
            it.getline(room, number, unquoted(text)[0]);
        tell_value(string(room, sizeof room));
    } else if (word == "line") {
        words >> text;
        char until = unquoted(text)[0];
        text = "before";
        getline(it, text, until);
        tell_value(text);
    } else if (word == "peek")
        printf(" %d", it.peek());
    else if (word == "unget")
        it.unget();
    else if (word == "putback") {
        words >> text;
        it.putback(unquoted(text)[0]);
    } else if (word == "ignore") {
        words >> number >> text;
        it.ignore(number, text == "eof" ? EOF : static_cast<unsigned char>(unquoted(text)[0]));
    } else if (word == "ignoreall")
        it.ignore(numeric_limits<streamsize>::max(), 'x');
    else if (word == "read" || word == "readsome") {
        words >> number;
        if (word == "read")
            it.read(room, number);
        else
            it.readsome(room, number);
        tell_value(string(room, sizeof room));
    } else if (word == "sync")
        printf(" %d", it.sync());
    else
        return false;
    return true;
}

static const ios_base::seekdir from_where[] = {ios_base::beg, ios_base::cur, ios_base::end};

static bool changes_it(iostream &it, const string &word, istream &words)
{
    int number = 0, where = 0;
    string text;
    for (const Change &change : changes)
        if (word == change.name) {
            it << change.make;
            return true;
        }
    if (word == "setw" || word == "setprecision" || word == "setbase") {
        words >> number;
        if (word == "setw")
            it << setw(number);
        else if (word == "setprecision")
            it << setprecision(number);
        else
            it << setbase(number);
    } else if (word == "setfill") {
        words >> text;
        it << setfill(unquoted(text)[0]);
    } else if (word == "setiosflags")
        it << setiosflags(ios_base::showbase | ios_base::hex);
    else if (word == "resetiosflags")
        it >> resetiosflags(ios_base::basefield | ios_base::floatfield);
    else if (word == "clear")
        it.clear();
    else if (word == "fail")
        it.setstate(ios_base::failbit);
    else if (word == "eof")
        it.setstate(ios_base::eofbit);
    else if (word == "seekg" || word == "seekp") {
        words >> number >> where;
        if (word == "seekg")
            it.seekg(number, from_where[where]);
        else
            it.seekp(number, from_where[where]);
    } else if (word == "seekgto" || word == "seekpto") {
        words >> number;
        if (word == "seekgto")
            it.seekg(number);
        else
            it.seekp(number);
    } else if (word == "tellg")
        printf(" %ld", static_cast<long>(it.tellg()));
    else if (word == "tellp")
        printf(" %ld", static_cast<long>(it.tellp()));
    else if (word == "width")
        printf(" %ld %ld %d", static_cast<long>(it.width()), static_cast<long>(it.precision()), it.fill());
    else
        return false;
    return true;
}

// Makes the steps of a line with a stream, and tells of each what came of it and the stream's state.
static void make(iostream &it, istream &words)
{
    string word;
    while (words >> word) {
        putchar('\n');
        tell(word);
        if (!writes(it, word, words) && !reads(it, word, words) && !changes_it(it, word, words))
            printf(" is no step");
        printf(" %d %ld", static_cast<int>(it.rdstate()), static_cast<long>(it.gcount()));
    }
    putchar('\n');
}

// How a stream is opened: ate, app, trunc as letters, and in and out.
static ios_base::openmode mode_of(const string &letters)
{
    ios_base::openmode mode = ios_base::openmode(0);
    for (char it : letters)
        mode |= it == 'i' ? ios_base::in : it == 'o' ? ios_base::out : it == 'a' ? ios_base::app : it == 'e' ? ios_base::ate : ios_base::trunc;
    return mode;
}

int main()
{
    string line, kind, letters, text;
    int number = 0;
    while (getline(cin, line)) {
        istringstream words(line);
        words >> kind >> letters >> text;
        text = unquoted(text.substr(1));
        printf("= %d: ", ++number);
        if (kind == "text") {
            stringstream it(text, mode_of(letters));
            make(it, words);
            tell(it.str());
        } else {
            ofstream("streams.txt") << text;
            fstream it("streams.txt", mode_of(letters));
            printf("%d %d", it.is_open(), static_cast<int>(it.rdstate()));
            make(it, words);
            it.close();
            stringstream whole;
            whole << ifstream("streams.txt").rdbuf();
            tell(whole.str());
        }
        putchar('\n');
    }
    return 0;
}
