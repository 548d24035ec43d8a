// A class of matrices with operators, whose product is parted by rows.
#include <bsp.h>

#include <cstdio>
#include <stdexcept>
#include <vector>

class Matrix {
    int rows, columns;
    std::vector<double> values;

public:
    Matrix(int r, int c) : rows(r), columns(c), values(r * c) {}
    double &operator()(int i, int j)
    {
        if (i < 0 || i >= rows || j < 0 || j >= columns)
            throw std::range_error("no such element");
        return values[i * columns + j];
    }
    double *row(int i) { return &values[i * columns]; }
    int bytes() const { return static_cast<int>(values.size() * sizeof(double)); }
};

int main()
{
    const int n = 6;
    bsp_begin(bsp_nprocs());
    Matrix a(n, n), b(n, n), c(n, n);
    for (int i = 0; i < n; i++)
        for (int j = 0; j < n; j++)
            a(i, j) = i + j, b(i, j) = i - j;
    bsp_push_reg(c.row(0), c.bytes());
    bsp_sync();
    for (int i = bsp_pid(); i < n; i += bsp_nprocs()) {
        std::vector<double> row(n);
        for (int j = 0; j < n; j++)
            for (int k = 0; k < n; k++)
                row[j] += a(i, k) * b(k, j);
        bsp_put(0, row.data(), c.row(0), i * n * static_cast<int>(sizeof(double)), n * static_cast<int>(sizeof(double)));
    }
    bsp_sync();
    if (bsp_pid() == 0)
        for (int i = 0; i < n; i++)
            for (int j = 0; j < n; j++)
                std::printf("%4.0f%s", c(i, j), j + 1 < n ? "" : "\n");
    try {
        a(n, 0) = 1;
    } catch (const std::runtime_error &error) {
        std::printf("%s\n", error.what());
    }
    bsp_end();
}
