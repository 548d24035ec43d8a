// Streams of C++ over texts: what is written with each flag and type, and what is read. A call is a script of steps over one stream; behind
// each step stands the state of the stream and where it reads or writes.
#include <algorithm>
#include <cstring>
#include <iomanip>
#include <iostream>
#include <sstream>
#include <string>

#include "calls.h"

namespace {

char *next_operand;

char *operand()
{
    char *from = next_operand;
    next_operand = std::find(from, from + std::strlen(from), ':');
    if (*next_operand == ':')
        *next_operand++ = '\0';
    return from;
}

int64_t number_operand()
{
    const char *at = operand();
    const bool is_negative = *at == '-';
    uint64_t number = 0;
    for (at += is_negative ? 1 : 0; *at != '\0'; at++)
        number = 10 * number + static_cast<uint64_t>(*at - '0');
    return static_cast<int64_t>(is_negative ? 0 - number : number);
}

double real_operand()
{
    uint64_t bits = 0;
    double real;
    for (const char *at = operand(); *at != '\0'; at++)
        bits = 16 * bits + static_cast<uint64_t>(value_of_figure(*at));
    std::memcpy(&real, &bits, sizeof real);
    return real;
}

std::string text_operand()
{
    std::string text;
    for (const char *at = operand(); at[0] != '\0' && at[1] != '\0'; at += 2)
        text += static_cast<char>(16 * value_of_figure(at[0]) + value_of_figure(at[1]));
    return text;
}

void say_string(const std::string &text)
{
    say_bytes(text.data(), text.size());
}

void say_state(const std::ios &stream)
{
    std::string state;
    state += stream.eof() ? 'e' : '.';
    state += (stream.rdstate() & std::ios::failbit) != 0 ? 'f' : '.';
    state += stream.bad() ? 'b' : '.';
    say(state.c_str());
}

void set_flag(std::stringstream &stream, const std::string &name)
{
    if (name == "hex")
        stream << std::hex;
    else if (name == "oct")
        stream << std::oct;
    else if (name == "dec")
        stream << std::dec;
    else if (name == "nobase")
        stream.unsetf(std::ios::basefield);
    else if (name == "fixed")
        stream << std::fixed;
    else if (name == "scientific")
        stream << std::scientific;
    else if (name == "defaultfloat")
        stream.unsetf(std::ios::floatfield);
    else if (name == "hexfloat")
        stream.setf(std::ios::fixed | std::ios::scientific, std::ios::floatfield);
    else if (name == "left")
        stream << std::left;
    else if (name == "right")
        stream << std::right;
    else if (name == "internal")
        stream << std::internal;
    else if (name == "showpos")
        stream << std::showpos;
    else if (name == "noshowpos")
        stream << std::noshowpos;
    else if (name == "showbase")
        stream << std::showbase;
    else if (name == "noshowbase")
        stream << std::noshowbase;
    else if (name == "showpoint")
        stream << std::showpoint;
    else if (name == "noshowpoint")
        stream << std::noshowpoint;
    else if (name == "uppercase")
        stream << std::uppercase;
    else if (name == "nouppercase")
        stream << std::nouppercase;
    else if (name == "boolalpha")
        stream << std::boolalpha;
    else if (name == "noboolalpha")
        stream << std::noboolalpha;
    else if (name == "skipws")
        stream >> std::skipws;
    else if (name == "noskipws")
        stream >> std::noskipws;
    else if (name == "ws")
        stream >> std::ws;
    else if (name == "endl")
        stream << std::endl;
    else if (name == "ends")
        stream << std::ends;
}

void write_value(std::stringstream &stream, const std::string &type)
{
    if (type == "bool")
        stream << (number_operand() != 0);
    else if (type == "short")
        stream << static_cast<short>(number_operand());
    else if (type == "ushort")
        stream << static_cast<unsigned short>(number_operand());
    else if (type == "int")
        stream << static_cast<int>(number_operand());
    else if (type == "unsigned")
        stream << static_cast<unsigned>(number_operand());
    else if (type == "long")
        stream << static_cast<word_t>(number_operand());
    else if (type == "ulong")
        stream << static_cast<uword_t>(number_operand());
    else if (type == "llong")
        stream << static_cast<long long>(number_operand());
    else if (type == "ullong")
        stream << static_cast<unsigned long long>(number_operand());
    else if (type == "char")
        stream << static_cast<char>(number_operand());
    else if (type == "schar")
        stream << static_cast<signed char>(number_operand());
    else if (type == "uchar")
        stream << static_cast<unsigned char>(number_operand());
    else if (type == "float")
        stream << static_cast<float>(real_operand());
    else if (type == "double")
        stream << real_operand();
    else if (type == "text")
        stream << text_operand().c_str();
    else if (type == "string")
        stream << text_operand();
    else if (type == "place")
        stream << reinterpret_cast<void *>(static_cast<intptr_t>(number_operand()));
}

template <typename Type> void read_whole(std::stringstream &stream)
{
    Type number = 77;
    stream >> number;
    say_number(static_cast<int64_t>(number));
}

template <typename Type> void read_real(std::stringstream &stream)
{
    Type number = 77;
    stream >> number;
    say_real(static_cast<double>(number));
}

template <typename Type> void read_byte(std::stringstream &stream)
{
    Type byte = '?';
    stream >> byte;
    say_number(static_cast<signed char>(byte));
}

void read_value(std::stringstream &stream, const std::string &type)
{
    if (type == "bool") {
        bool is_so = true;
        stream >> is_so;
        say(is_so ? "true" : "false");
    } else if (type == "short")
        read_whole<short>(stream);
    else if (type == "ushort")
        read_whole<unsigned short>(stream);
    else if (type == "int")
        read_whole<int>(stream);
    else if (type == "unsigned")
        read_whole<unsigned>(stream);
    else if (type == "long")
        read_whole<word_t>(stream);
    else if (type == "ulong")
        read_whole<uword_t>(stream);
    else if (type == "llong")
        read_whole<long long>(stream);
    else if (type == "ullong")
        read_whole<unsigned long long>(stream);
    else if (type == "char")
        read_byte<char>(stream);
    else if (type == "schar")
        read_byte<signed char>(stream);
    else if (type == "uchar")
        read_byte<unsigned char>(stream);
    else if (type == "float")
        read_real<float>(stream);
    else if (type == "double")
        read_real<double>(stream);
    else if (type == "string") {
        std::string text = "?";
        stream >> text;
        say_string(text);
    } else if (type == "text") {
        char text[64] = "?";
        stream >> std::setw(static_cast<int>(sizeof text)) >> text;
        say_string(text);
    }
}

void read_some(std::stringstream &stream, const std::string &step)
{
    char room[200] = "";
    if (step == "get")
        say_number(stream.get());
    else if (step == "getc") {
        char byte = '?';
        stream.get(byte);
        say_number(byte);
    } else if (step == "gets") {
        const int count = static_cast<int>(number_operand());
        stream.get(room, count, static_cast<char>(number_operand()));
        say_string(room);
        say_number(stream.gcount());
    } else if (step == "getline") {
        const int count = static_cast<int>(number_operand());
        stream.getline(room, count, static_cast<char>(number_operand()));
        say_string(room);
        say_number(stream.gcount());
    } else if (step == "getstring") {
        std::string line = "?";
        std::getline(stream, line, static_cast<char>(number_operand()));
        say_string(line);
    } else if (step == "ignore") {
        const int count = static_cast<int>(number_operand());
        stream.ignore(count, static_cast<int>(number_operand()));
        say_number(stream.gcount());
    } else if (step == "peek")
        say_number(stream.peek());
    else if (step == "read") {
        stream.read(room, number_operand());
        say_number(stream.gcount());
        say_bytes(room, static_cast<size_t>(stream.gcount()));
    } else if (step == "unget")
        stream.unget();
    else if (step == "putback")
        stream.putback(static_cast<char>(number_operand()));
}

const std::ios::seekdir ways[] = {std::ios::beg, std::ios::cur, std::ios::end};

void go_to(std::stringstream &stream, const std::string &step)
{
    if (step == "seekg") {
        const int64_t offset = number_operand();
        stream.seekg(offset, ways[number_operand()]);
    } else if (step == "seekp") {
        const int64_t offset = number_operand();
        stream.seekp(offset, ways[number_operand()]);
    } else if (step == "tellg")
        say_number(static_cast<int64_t>(stream.tellg()));
    else
        say_number(static_cast<int64_t>(stream.tellp()));
}

// Whether the step was one that changes or asks the stream as a whole.
bool handle(std::stringstream &stream, const std::string &step)
{
    if (step == "width")
        stream << std::setw(static_cast<int>(number_operand()));
    else if (step == "fill")
        stream << std::setfill(static_cast<char>(number_operand()));
    else if (step == "precision")
        stream << std::setprecision(static_cast<int>(number_operand()));
    else if (step == "setbase")
        stream << std::setbase(static_cast<int>(number_operand()));
    else if (step == "clear")
        stream.clear();
    else if (step == "str")
        stream.str(text_operand());
    else if (step == "put")
        stream.put(static_cast<char>(number_operand()));
    else if (step == "write") {
        const std::string text = text_operand();
        stream.write(text.data(), static_cast<std::streamsize>(text.size()));
    } else if (step == "asks") {
        say_number(stream.width());
        say_number(stream.precision());
        say_number(stream.fill());
        say(stream.good() ? "good" : "not");
        say(stream.fail() ? "fail" : "not");
        say(stream ? "true" : "false");
    } else
        return false;
    return true;
}

void make_step(std::stringstream &stream, char *word)
{
    next_operand = word;
    const std::string step = operand();
    say(";");
    if (step == "flag")
        set_flag(stream, operand());
    else if (step == "out")
        write_value(stream, operand());
    else if (step == "in")
        read_value(stream, operand());
    else if (step == "seekg" || step == "seekp" || step == "tellg" || step == "tellp")
        go_to(stream, step);
    else if (!handle(stream, step))
        read_some(stream, step);
    say_state(stream);
}

} // namespace

int main()
{
    while (read_call()) {
        std::stringstream stream;
        while (has_word())
            make_step(stream, read_word());
        say("|");
        say_string(stream.str());
        end_call();
    }
    return 0;
}
