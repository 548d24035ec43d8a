// A parser by descent, whose faults are exceptions with a place, for formulas that ranks share out.
#include <bsp.h>

#include <cctype>
#include <cmath>
#include <iomanip>
#include <iostream>
#include <map>
#include <sstream>
#include <string>

class Fault : public std::exception {
    std::string text;

public:
    Fault(const std::string &what, std::size_t at)
    {
        std::ostringstream out;
        out << what << " at " << at;
        text = out.str();
    }
    const char *what() const noexcept override { return text.c_str(); }
};

class Parser {
    const std::string &text;
    std::size_t at = 0;
    const std::map<std::string, double> &names;

    char next()
    {
        while (at < text.size() && std::isspace(static_cast<unsigned char>(text[at])))
            ++at;
        return at < text.size() ? text[at] : '\0';
    }
    double factor()
    {
        char c = next();
        if (c == '(') {
            ++at;
            double value = sum();
            if (next() != ')')
                throw Fault("no )", at);
            ++at;
            return value;
        }
        if (c == '-')
            return ++at, -factor();
        if (std::isdigit(static_cast<unsigned char>(c))) {
            std::size_t used = 0;
            double value = std::stod(text.substr(at), &used);
            at += used;
            return value;
        }
        std::size_t begin = at;
        while (at < text.size() && std::isalpha(static_cast<unsigned char>(text[at])))
            ++at;
        const auto found = names.find(text.substr(begin, at - begin));
        if (found == names.end())
            throw Fault(begin == at ? "nothing" : "no name", begin);
        return found->second;
    }
    double product()
    {
        double value = factor();
        for (char c = next(); c == '*' || c == '/'; c = next()) {
            std::size_t place = at++;
            double right = factor();
            if (c == '/' && right == 0)
                throw Fault("division by 0", place);
            value = c == '*' ? value * right : value / right;
        }
        return value;
    }

public:
    Parser(const std::string &given, const std::map<std::string, double> &known) : text(given), names(known) {}
    double sum()
    {
        double value = product();
        for (char c = next(); c == '+' || c == '-'; c = next()) {
            ++at;
            value += c == '+' ? product() : -product();
        }
        return value;
    }
    double all()
    {
        double value = sum();
        if (next() != '\0')
            throw Fault("more than a formula", at);
        return value;
    }
};

int main()
{
    bsp_begin(bsp_nprocs());
    const std::map<std::string, double> names{{"p", bsp_nprocs()}, {"s", bsp_pid()}, {"pi", std::acos(-1.0)}};
    const std::string formulas[] = {"2 * (3 + 4) * p", "pi / s", "-(1.5 - p) / 4", "(1 + 2", "x + 1", "3 4", "1e3 * s -"};
    for (std::size_t i = 0; i < std::size(formulas); ++i)
        if (static_cast<int>(i) % bsp_nprocs() == bsp_pid())
            try {
                std::cout << formulas[i] << " = " << std::setprecision(6) << Parser(formulas[i], names).all() << "\n";
            } catch (const Fault &fault) {
                std::cout << formulas[i] << ": " << fault.what() << "\n";
            }
    bsp_end();
    return 0;
}
