// Sample sort as templates over any type that can be copied, with iterators, lambdas and values that move.
#include <bsp.h>

#include <algorithm>
#include <cstring>
#include <functional>
#include <iostream>
#include <iterator>
#include <numeric>
#include <type_traits>
#include <utility>
#include <vector>

namespace par {

template <typename T, typename Less = std::less<T>>
class Sorter {
    static_assert(std::is_trivially_copyable<T>::value, "messages have bytes");
    Less less_;

    std::vector<T> everywhere(const std::vector<T>& mine) const
    {
        for (int t = 0; t < bsp_nprocs(); ++t)
            bsp_send(t, nullptr, mine.data(), static_cast<int>(mine.size() * sizeof(T)));
        bsp_sync();
        return received();
    }

    static std::vector<T> received()
    {
        std::vector<T> all;
        int count = 0, bytes = 0;
        bsp_qsize(&count, &bytes);
        all.reserve(bytes / sizeof(T));
        while (count--) {
            int size;
            bsp_get_tag(&size, nullptr);
            auto at = all.size();
            all.resize(at + size / sizeof(T));
            bsp_move(&all[at], size);
        }
        return all;
    }

public:
    explicit Sorter(Less less = Less()) : less_(std::move(less)) {}

    template <typename Container>
    std::vector<T> operator()(Container&& given) const
    {
        std::vector<T> mine(std::begin(given), std::end(given));
        std::sort(mine.begin(), mine.end(), less_);
        const std::size_t p = bsp_nprocs();
        std::vector<T> samples;
        for (std::size_t i = 0; i < p; ++i)
            samples.push_back(mine[i * mine.size() / p]);
        auto all = everywhere(samples);
        std::sort(all.begin(), all.end(), less_);
        auto from = mine.cbegin();
        for (std::size_t t = 0; t < p; ++t) {
            auto to = t + 1 == p ? mine.cend() : std::lower_bound(from, mine.cend(), all[(t + 1) * p], less_);
            bsp_send(static_cast<int>(t), nullptr, &*from, static_cast<int>(std::distance(from, to) * sizeof(T)));
            from = to;
        }
        bsp_sync();
        auto result = received();
        std::inplace_merge(result.begin(), result.begin(), result.end(), less_);
        std::stable_sort(result.begin(), result.end(), less_);
        return result;
    }
};

template <class T> std::ostream& operator<<(std::ostream& out, const std::vector<T>& v)
{
    out << '[';
    std::copy(v.begin(), v.end(), std::ostream_iterator<T>(out, " "));
    return out << "\b]";
}

} // namespace par

struct Point {
    double x, y;
    friend std::ostream& operator<<(std::ostream& out, const Point& p) { return out << p.x << '/' << p.y; }
};

int main()
{
    bsp_begin(bsp_nprocs());
    const int s = bsp_pid();
    std::vector<int> numbers(12);
    std::generate(numbers.begin(), numbers.end(), [seed = 31u + s]() mutable { return static_cast<int>((seed = seed * 1103515245u + 12345u) >> 16 & 63); });
    const auto sorted = par::Sorter<int>()(numbers);
    Point points[6];
    std::transform(numbers.begin(), numbers.begin() + 6, points, [s](int n) { return Point{n / 4.0, -s * 1.0}; });
    auto far = [](const Point& a, const Point& b) { return std::make_pair(a.y, a.x) > std::make_pair(b.y, b.x); };
    auto by_y = par::Sorter<Point, decltype(far)>(far)(points);
    using par::operator<<;
    std::cout << s << ": " << sorted << " sum " << std::accumulate(sorted.begin(), sorted.end(), 0L) << ", " << by_y.size() << " points: " << by_y << std::endl;
    bsp_end();
    return 0;
}
