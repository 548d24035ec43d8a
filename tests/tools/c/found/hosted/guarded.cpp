// Streams that throw.
#include <bsp.h>

#include <fstream>
#include <iostream>
#include <sstream>

int main()
{
    bsp_begin(bsp_nprocs());
    std::istringstream in("12 x");
    in.exceptions(std::ios::failbit | std::ios::badbit);
    int number = 0;
    try {
        for (;;) {
            in >> number;
            std::cout << number << '\n';
        }
    } catch (const std::ios_base::failure &) {
        std::cout << "not a number\n";
    }
    std::ifstream file;
    file.exceptions(std::ifstream::failbit);
    try {
        file.open("no/such/file");
    } catch (const std::exception &) {
        std::cout << "no file" << std::endl;
    }
    bsp_end();
}
