// A file of goods is read into a map, and a report is written by rank 0.
#include <bsp.h>

#include <fstream>
#include <iostream>
#include <map>
#include <sstream>
#include <string>

struct Goods {
    int count = 0;
    double price = 0;
};

static std::map<std::string, Goods> read(const std::string &name)
{
    std::ifstream in(name);
    if (!in)
        throw std::runtime_error("no file " + name);
    std::map<std::string, Goods> all;
    for (std::string line; std::getline(in, line);) {
        std::istringstream words(line);
        std::string item;
        Goods it;
        if (words >> item >> it.count >> it.price)
            all[item].count += it.count, all[item].price = it.price;
    }
    return all;
}

int main()
{
    bsp_begin(bsp_nprocs());
    try {
        auto all = read("goods.txt");
        if (bsp_pid() == 0) {
            std::ofstream report("report.txt");
            double total = 0;
            for (const auto &[name, it] : all) {
                report << name << ' ' << it.count * it.price << '\n';
                total += it.count * it.price;
            }
            std::cout << all.size() << " kinds, " << total << '\n';
        }
        read("missing.txt");
    } catch (const std::exception &error) {
        std::cout << error.what() << '\n';
    }
    bsp_end();
}
