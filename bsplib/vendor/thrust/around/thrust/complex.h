/* As much of thrust::complex as the files of Thrust want: two numbers, and the operations that they write with it. */
#pragma once
#include <math.h>

namespace thrust {
template <typename T> class complex {
public:
    complex(T real = T(), T imag = T()) : x(real), y(imag) {}
    T real() const { return x; }
    T imag() const { return y; }
    void imag(T value) { y = value; }
    complex operator-() const { return complex(-x, -y); }
    complex operator+(T other) const { return complex(x + other, y); }
    complex operator+(const complex &other) const { return complex(x + other.x, y + other.y); }
    complex operator*(const complex &other) const { return complex(x * other.x - y * other.y, x * other.y + y * other.x); }
    complex operator/(T other) const { return complex(x / other, y / other); }
    complex &operator+=(const complex &other) { return *this = *this + other; }

private:
    T x, y;
};

/* The square of the absolute value. It is infinite as soon as a part is, also beside a NaN, as hypot has it. */
inline double norm(const complex<double> &z)
{
    double r = ::hypot(z.real(), z.imag());
    return r * r;
}

template <typename T> T abs(const complex<T> &z);
template <typename T> T arg(const complex<T> &z);
template <typename T> complex<T> acos(const complex<T> &z);
template <typename T> complex<T> asin(const complex<T> &z);
template <typename T> complex<T> atan(const complex<T> &z);
template <typename T> complex<T> acosh(const complex<T> &z);
template <typename T> complex<T> asinh(const complex<T> &z);
template <typename T> complex<T> atanh(const complex<T> &z);
template <typename T> complex<T> log(const complex<T> &z);
template <typename T> complex<T> log10(const complex<T> &z);
template <typename T> complex<T> sqrt(const complex<T> &z);
} // namespace thrust
