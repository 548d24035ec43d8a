// Exceptions through several functions, with objects that are unmade on the way.
#include <bsp.h>

#include <iostream>
#include <stdexcept>
#include <string>
#include <vector>

class Guard {
    std::string name;

public:
    explicit Guard(const std::string &it) : name(it) {}
    ~Guard() { std::cout << "leave " << name << "\n"; }
};

static int parse(const std::string &text)
{
    Guard guard(text);
    std::size_t end = 0;
    int number = std::stoi(text, &end);
    if (end != text.size())
        throw std::invalid_argument("rest of " + text);
    return number;
}

int main()
{
    bsp_begin(bsp_nprocs());
    for (const char *text : {"12", "3x", "none", "99999999999"})
        try {
            std::cout << parse(text) + bsp_pid() << "\n";
        } catch (const std::invalid_argument &error) {
            std::cout << "invalid: " << error.what() << "\n";
        } catch (const std::exception &error) {
            std::cout << "other: " << error.what() << "\n";
        }
    try {
        std::vector<int> numbers(3);
        std::cout << numbers.at(bsp_pid() + 3);
    } catch (const std::out_of_range &) {
        std::cout << "out of range" << std::endl;
    }
    bsp_end();
}
