// What C++20 adds: concepts, spans, ranges, comparisons in one operator, coroutines and bits.
#include <bsp.h>
#include <algorithm>
#include <bit>
#include <compare>
#include <concepts>
#include <coroutine>
#include <iostream>
#include <numbers>
#include <ranges>
#include <span>
#include <string>
#include <utility>
#include <vector>

template <typename T>
concept Number = std::integral<T> || std::floating_point<T>;

template <Number T>
T total(std::span<const T> all)
{
    T sum{};
    for (T it : all) sum += it;
    return sum;
}

template <typename T>
struct Generator {
    struct promise_type {
        T value;
        Generator get_return_object() { return Generator{std::coroutine_handle<promise_type>::from_promise(*this)}; }
        std::suspend_always initial_suspend() noexcept { return {}; }
        std::suspend_always final_suspend() noexcept { return {}; }
        std::suspend_always yield_value(T v) { value = v; return {}; }
        void return_void() {}
        void unhandled_exception() { throw; }
    };
    std::coroutine_handle<promise_type> handle;
    explicit Generator(std::coroutine_handle<promise_type> h) : handle(h) {}
    Generator(const Generator&) = delete;
    ~Generator() { handle.destroy(); }
    bool next() { handle.resume(); return !handle.done(); }
    T value() const { return handle.promise().value; }
};

static Generator<long long> fibonacci(int from)
{
    long long a = from, b = 1;
    while (a < 1000) {
        co_yield a;
        a = std::exchange(b, a + b);
    }
}

struct Version {
    int major, minor;
    std::string name;
    auto operator<=>(const Version&) const = default;
};

int main()
{
    bsp_begin(bsp_nprocs());
    const int s = bsp_pid();
    std::vector<double> xs{1.5, 2.25, std::numbers::pi * s};
    std::cout << s << ": " << total(std::span<const double>(xs)) << ' ' << total<int>(std::vector{1, 2, s});
    auto squares = std::views::iota(1, 20) | std::views::filter([s](int n) { return n % 4 == s % 4; }) | std::views::transform([](int n) { return n * n; });
    for (int n : squares | std::views::take(3)) std::cout << ' ' << n;
    auto numbers = fibonacci(s);
    int count = 0;
    long long last = 0;
    while (numbers.next()) ++count, last = numbers.value();
    Version a{1, s, "a"}, b{1, 2, "b"};
    std::cout << ", " << count << " to " << last << (a < b ? ", older" : a == b ? ", same" : ", not older") << ' ' << std::popcount(0xffu << s) << ' ' << std::bit_ceil(5u + s);
    std::ranges::sort(xs, std::ranges::greater{});
    std::cout << ' ' << xs.front() << ' ' << std::ranges::count_if(xs, [](double x) { return x > 2; }) << std::endl;
    bsp_end();
}
