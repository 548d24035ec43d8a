// Least squares by normal equations over std::vector, with a class for the machine, in the style of a course in C++.
#include <bsp.h>
#include <algorithm>
#include <cmath>
#include <cstdio>
#include <iomanip>
#include <iostream>
#include <numeric>
#include <string>
#include <vector>

template <typename T> class DistributedVector {
public:
    explicit DistributedVector(int n) : n_(n), values_(n, T()) { bsp_push_reg(values_.data(), n * sizeof(T)); bsp_sync(); }
    ~DistributedVector() { bsp_pop_reg(values_.data()); bsp_sync(); }
    void spread(int i, T value) { for (int r = 0; r < bsp_nprocs(); ++r) bsp_put(r, &value, values_.data(), i * sizeof(T), sizeof(T)); }
    T &operator[](int i) { return values_[i]; }
    int size() const { return n_; }
    auto begin() { return values_.begin(); }
    auto end() { return values_.end(); }
private:
    int n_;
    std::vector<T> values_;
};

int main()
{
    bsp_begin(bsp_nprocs());
    {
        const int n = 24, degree = 3;
        DistributedVector<double> y(n);
        for (int i = bsp_pid(); i < n; i += bsp_nprocs())
            y.spread(i, std::round(8 * std::sin(0.25 * i)) / 8 + 1);
        bsp_sync();
        std::vector<std::vector<double>> A(degree + 1, std::vector<double>(degree + 2));
        for (int i = 0; i < n; ++i)
            for (int j = 0; j <= degree; ++j) {
                for (int k = 0; k <= degree; ++k) A[j][k] += std::pow(i / 8.0, j + k);
                A[j][degree + 1] += y[i] * std::pow(i / 8.0, j);
            }
        for (int k = 0; k <= degree; ++k) {
            auto pivot = std::max_element(A.begin() + k, A.end(), [k](const auto &a, const auto &b) { return std::fabs(a[k]) < std::fabs(b[k]); });
            std::iter_swap(A.begin() + k, pivot);
            for (int i = 0; i <= degree; ++i)
                if (i != k)
                    for (int j = degree + 1; j >= k; --j) A[i][j] -= A[i][k] / A[k][k] * A[k][j];
        }
        if (bsp_pid() == 0) {
            std::string label = "coefficients:";
            std::cout << label << std::fixed << std::setprecision(6);
            for (int k = 0; k <= degree; ++k) std::cout << ' ' << A[k][degree + 1] / A[k][k];
            std::cout << std::endl << "sum " << std::setprecision(3) << std::accumulate(y.begin(), y.end(), 0.0) << "\n";
        }
    }
    bsp_end();
}
