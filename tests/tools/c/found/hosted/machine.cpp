// A machine of states whose faults are exceptions from a table of functions.
#include <bsp.h>

#include <array>
#include <iostream>
#include <stdexcept>
#include <string>
#include <string_view>

enum class State { start, number, done };
struct Fault : std::runtime_error {
    std::size_t place;
    Fault(const std::string &text, std::size_t at) : std::runtime_error(text), place(at) {}
};

static long long read(std::string_view text)
{
    State state = State::start;
    long long value = 0;
    for (std::size_t i = 0; i < text.size(); i++)
        switch (state) {
        case State::start:
        case State::number:
            if (text[i] < '0' || text[i] > '9')
                throw Fault(std::string("bad letter ") + text[i], i);
            if (value > 99999999)
                throw Fault("too long", i);
            value = value * 10 + (text[i] - '0');
            state = State::number;
            break;
        case State::done:
            break;
        }
    if (state == State::start)
        throw Fault("empty", 0);
    return value;
}

int main()
{
    bsp_begin(bsp_nprocs());
    const std::array<std::string_view, 5> texts = {"123", "12a", "", "99999999999", "7"};
    for (std::size_t i = bsp_pid(); i < texts.size(); i += bsp_nprocs())
        try {
            std::cout << read(texts[i]) << '\n';
        } catch (const Fault &fault) {
            std::cout << fault.what() << " at " << fault.place << '\n';
        }
    bsp_end();
}
