// Templates and a class of statistics, with an exception where there is nothing.
#include <bsp.h>

#include <cmath>
#include <iomanip>
#include <iostream>
#include <numeric>
#include <stdexcept>
#include <vector>

template <typename T> class Stats {
    std::vector<T> values;

public:
    void add(T it) { values.push_back(it); }
    double mean() const
    {
        if (values.empty())
            throw std::logic_error("no values");
        return std::accumulate(values.begin(), values.end(), 0.0) / values.size();
    }
    double deviation() const
    {
        double m = mean(), sum = 0;
        for (const T &it : values)
            sum += (it - m) * (it - m);
        return std::sqrt(sum / values.size());
    }
};

int main()
{
    bsp_begin(bsp_nprocs());
    Stats<int> numbers;
    Stats<float> none;
    for (int i = 0; i < 5; i++)
        numbers.add(i * i + bsp_pid());
    std::cout << std::fixed << std::setprecision(3) << numbers.mean() << " +- " << numbers.deviation() << std::endl;
    try {
        std::cout << none.mean();
    } catch (const std::logic_error &error) {
        std::cerr << error.what() << std::endl;
    }
    bsp_end();
    return 0;
}
