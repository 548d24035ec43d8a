// Times by <chrono>, which are not printed, and random numbers that begin at a fixed place.
#include <bsp.h>

#include <chrono>
#include <iostream>
#include <random>

int main()
{
    bsp_begin(bsp_nprocs());
    auto begin = std::chrono::steady_clock::now();
    std::mt19937 random(42 + bsp_pid());
    std::uniform_int_distribution<int> die(1, 6);
    int sum = 0;
    for (int i = 0; i < 20; i++)
        sum += die(random);
    std::random_device device;
    unsigned first = device();
    auto took = std::chrono::duration_cast<std::chrono::nanoseconds>(std::chrono::steady_clock::now() - begin);
    std::cout << sum << ' ' << (took.count() >= 0) << ' ' << (first == device() && first == device()) << std::endl;
    bsp_end();
}
