// Streams of files and of texts, and manipulators, in each standard of C++.
#include <fstream>
#include <iomanip>
#include <iostream>
#include <sstream>
#include <string>

int main()
{
    std::fstream file("kept.txt", std::ios::out);
    file << std::setw(4) << std::setfill('0') << 7 << std::endl;
    file.close();
    std::ifstream again("kept.txt");
    std::string word;
    again >> word;
    std::istringstream text(word + " 8");
    int one = 0, two = 0;
    text >> one >> std::setw(1) >> two;
    std::ostringstream sum;
    sum << std::setbase(16) << one * 10 + two << ' ' << std::setprecision(3) << 1.0 / 3;
    sum.str(std::string(sum.str()));
    std::cout << word << ' ' << sum.str() << std::endl;
    return 0;
}
