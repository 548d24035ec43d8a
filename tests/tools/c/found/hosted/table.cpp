// A table with streams: widths, fills, bases, precision, and texts that are read again.
#include <bsp.h>

#include <fstream>
#include <iomanip>
#include <iostream>
#include <sstream>

int main()
{
    bsp_begin(bsp_nprocs());
    std::ostringstream text;
    text << std::setw(8) << std::setfill('.') << 42 + bsp_pid() << '|' << std::hex << std::showbase << 255 << '|' << std::dec << std::fixed
         << std::setprecision(3) << 2.0 / 3 << '|' << std::scientific << 12345.678 << '|' << std::boolalpha << true;
    std::cout << text.str() << '\n';
    std::istringstream in("7 8.5 word rest of it");
    int a;
    double b;
    std::string word, rest;
    in >> a >> b >> word;
    std::getline(in, rest);
    std::cout << a + b << ' ' << word << '[' << rest << "] " << in.eof() << '\n';
    if (bsp_pid() == 0) {
        std::ofstream("numbers.out") << 1 << ' ' << 2.5 << '\n' << "three\n";
        std::ifstream file("numbers.out");
        for (std::string line; std::getline(file, line);)
            std::cout << line.size() << ' ' << line << std::endl;
    }
    bsp_end();
}
