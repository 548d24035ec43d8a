// Vectors by expression templates and by valarray; complex numbers and inner products of what each rank has.
#include <bsp.h>
#include <cmath>
#include <complex>
#include <cstdio>
#include <numeric>
#include <tuple>
#include <valarray>
#include <vector>

template <class E> struct Expr {
    const E& self() const { return static_cast<const E&>(*this); }
};
template <class L, class R, class Op> struct Binary : Expr<Binary<L, R, Op>> {
    const L& l; const R& r;
    Binary(const L& l, const R& r) : l(l), r(r) {}
    double operator[](std::size_t i) const { return Op::apply(l[i], r[i]); }
    std::size_t size() const { return l.size(); }
};
struct Plus { static double apply(double a, double b) { return a + b; } };
struct Times { static double apply(double a, double b) { return a * b; } };
template <class L, class R> Binary<L, R, Plus> operator+(const Expr<L>& l, const Expr<R>& r) { return {l.self(), r.self()}; }
template <class L, class R> Binary<L, R, Times> operator*(const Expr<L>& l, const Expr<R>& r) { return {l.self(), r.self()}; }

class Vec : public Expr<Vec> {
    std::vector<double> v_;
public:
    explicit Vec(std::size_t n, double x = 0) : v_(n, x) {}
    template <class E> Vec& operator=(const Expr<E>& e)
    {
        for (std::size_t i = 0; i < v_.size(); ++i) v_[i] = e.self()[i];
        return *this;
    }
    double& operator[](std::size_t i) { return v_[i]; }
    double operator[](std::size_t i) const { return v_[i]; }
    std::size_t size() const { return v_.size(); }
};

template <typename... Ts> double sum(Ts... ts) { return (0.0 + ... + ts); }

int main()
{
    bsp_begin(bsp_nprocs());
    const int s = bsp_pid(), p = bsp_nprocs();
    Vec a(8, 1.5), b(8), c(8);
    for (std::size_t i = 0; i < 8; i++) b[i] = s + i / 2.0;
    c = a + b * b + a * b;
    std::valarray<double> x(12);
    std::iota(begin(x), end(x), s);
    std::valarray<double> column = x[std::slice(1, 3, 4)];
    x[x > 5.0] = 5.0;
    std::complex<double> z = std::polar(1.0, M_PI * s / p), w = std::pow(z, 2) + std::exp(std::complex<double>(0, 1));
    std::vector<double> all(p), mine{std::inner_product(begin(x), end(x), begin(x), 0.0)};
    bsp_push_reg(all.data(), p * sizeof(double));
    bsp_sync();
    for (int t = 0; t < p; t++) bsp_put(t, mine.data(), all.data(), s * sizeof(double), sizeof(double));
    bsp_sync();
    auto [least, most] = std::tuple(column.min(), column.max());
    std::printf("%d: %.3f %.3f, %.1f to %.1f, sum %.2f, sin %.4f, (%.4f, %.4f), norm %.4f, %g\n", s, c[0], c[7], least, most, x.sum(), std::sin(column).sum(),
        w.real(), w.imag(), std::sqrt(std::accumulate(all.begin(), all.end(), 0.0)), sum(1, 2.5, 3.0f, s));
    bsp_end();
}
