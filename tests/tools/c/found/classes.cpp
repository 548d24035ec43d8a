// A program in C++, as MulticoreBSP's examples are built: a class for the program, and the parts of the standard library without streams.
#include <algorithm>
#include <array>
#include <cmath>
#include <complex>
#include <cstdio>
#include <functional>
#include <limits>
#include <map>
#include <memory>
#include <numeric>
#include <string>
#include <unordered_map>
#include <vector>

#include "mcbsp.hpp"

struct Shape {
    virtual ~Shape() {}
    virtual double area() const = 0;
};

template <class Number> struct Square : Shape {
    Number side;
    explicit Square(Number given) : side(given) {}
    double area() const override { return side * side; }
};

struct Noisy {
    const char *name;
    explicit Noisy(const char *given) : name(given) { std::printf("begin %s\n", name); }
    ~Noisy() { std::printf("end %s\n", name); }
};

static Noisy object("static");

/* Puts numbers into both kinds of map and takes some out again, and answers what is left. */
static int mapped()
{
    std::map<int, int> sorted;
    std::unordered_map<std::string, int> table;
    int seed = 1, sum = 0, last = -1;
    for (int i = 0; i < 600; i++) {
        seed = (seed * 4093 + 257) % 65536;
        if (i % 3 < 2)
            sorted[seed % 211] = table[std::to_string(seed % 211)] = i;
        else if (sorted.erase(seed % 97) != table.erase(std::to_string(seed % 97)))
            return -1;
    }
    for (const auto &it : sorted) {
        if (it.first <= last || table.at(std::to_string(it.first)) != it.second)
            return -2;
        last = it.first;
        sum++;
    }
    return sum == (int)table.size() ? sum : -3;
}

static int &counter()
{
    static int *count = new int(40);
    return *count;
}

class Sums : public mcbsp::BSP_program {
protected:
    void spmd() override
    {
        std::vector<std::unique_ptr<Shape>> shapes;
        shapes.push_back(std::make_unique<Square<int>>(2));
        shapes.emplace_back(new Square<double>(0.5));
        double area = std::accumulate(shapes.begin(), shapes.end(), 0.0,
                                      [](double sum, const std::unique_ptr<Shape> &shape) { return sum + shape->area(); });
        std::array<int, 5> numbers = {{5, 3, 1, 4, 2}};
        std::sort(numbers.begin(), numbers.end(), std::greater<int>());
        std::size_t messages, bytes;
        for (bsp_pid_t t = 0; t < bsp_nprocs(); t++)
            bsp_hpsend(t, nullptr, numbers.data(), sizeof numbers);
        bsp_sync();
        bsp_qsize(&messages, &bytes);
        std::string text = "rank " + std::to_string(bsp_pid()) + ", with a text that takes memory";
        std::complex<double> turned = std::complex<double>(1, 2) * std::complex<double>(0, 1);
        std::printf("%s: %g %d %zu %zu %g %d %d %d\n", text.c_str(), area, numbers[0], messages, bytes, turned.real(), ++counter(),
                    std::numeric_limits<char>::is_signed, mapped());
    }

    mcbsp::BSP_program *newInstance() override { return new Sums(); }
};

int main()
{
    Sums sums;
    sums.begin(bsp_nprocs());
    return 0;
}
