#include "comm.hpp"
#include <iostream>
#include <iomanip>
#include <map>
#include <string>
#include <algorithm>
#include <cctype>
struct Counts { int letters[26]; };
int main()
{
    comm::Session session;
    std::string line; int number = 0; Counts mine{};
    while (std::getline(std::cin, line))
        if (number++ % comm::Session::size() == comm::Session::rank())
            for (unsigned char c : line) if (std::isalpha(c)) mine.letters[std::tolower(c) - 'a']++;
    auto all = comm::allgather(mine);
    if (comm::Session::rank() == comm::Session::size() - 1) {
        std::map<char, int> total;
        for (const auto &c : all) for (int i = 0; i < 26; ++i) if (c.letters[i]) total[char('a' + i)] += c.letters[i];
        std::size_t width = 0;
        for (const auto &[ch, n] : total) width = std::max(width, std::to_string(n).size());
        for (const auto &[ch, n] : total) std::cout << ch << ": " << std::setw(int(width)) << n << ' ' << std::string(n, '#') << '\n';
    }
    return 0;
}
