// Functions as values, containers and algorithms.
#include <bsp.h>

#include <algorithm>
#include <deque>
#include <functional>
#include <iostream>
#include <list>
#include <numeric>
#include <set>
#include <string>
#include <unordered_map>

int main()
{
    bsp_begin(bsp_nprocs());
    std::function<int(int)> twice = [](int it) { return 2 * it; }, both = [&](int it) { return twice(twice(it)); };
    std::deque<int> numbers(8);
    std::iota(numbers.begin(), numbers.end(), bsp_pid());
    std::transform(numbers.begin(), numbers.end(), numbers.begin(), both);
    numbers.erase(std::remove_if(numbers.begin(), numbers.end(), [](int it) { return it % 3 == 0; }), numbers.end());
    for (int it : numbers)
        std::cout << it << ' ';
    std::list<std::string> words = {"pear", "fig", "apple", "fig"};
    words.sort();
    words.unique();
    std::set<std::string> some(words.begin(), words.end());
    std::unordered_map<std::string, int> sizes;
    for (const auto &it : words)
        sizes[it] = static_cast<int>(it.size());
    std::cout << words.front() << ' ' << some.count("pear") << ' ' << sizes["apple"] << '\n';
    std::function<void()> none;
    try {
        none();
    } catch (const std::bad_function_call &) {
        std::cout << "no function\n";
    }
    bsp_end();
}
