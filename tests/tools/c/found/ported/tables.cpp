// The columns of a table, by the streams of files and texts and by containers, as courses in C++ have them.
#include <algorithm>
#include <atomic>
#include <complex>
#include <fstream>
#include <iomanip>
#include <iostream>
#include <iterator>
#include <list>
#include <memory>
#include <sstream>
#include <string>
#include <vector>

#include "bsp.h"

using Row = std::vector<double>;

// The numbers of each line that is this rank's, up to the first cell that is none.
static std::shared_ptr<std::vector<Row>> rows_of(const std::string &name, int rank, int ranks)
{
    auto rows = std::make_shared<std::vector<Row>>();
    std::ifstream in(name);
    std::string line, cell;
    if (!in.is_open()) {
        std::cerr << name << " cannot be opened" << std::endl;
        bsp_abort("no table\n");
    }
    std::getline(in, line);
    for (int number = 0; std::getline(in, line); ++number) {
        std::stringstream cells(line);
        Row row;
        double value;
        while (std::getline(cells, cell, ',') && std::istringstream(cell) >> value)
            row.push_back(value);
        if (number % ranks == rank)
            rows->push_back(row);
    }
    return rows;
}

// What streams do beside: numbers in all forms, words in turn, and what is left of a file.
static void write_forms(std::ostream &to, std::istream &from)
{
    std::list<int> numbers((std::istream_iterator<int>(from)), std::istream_iterator<int>());
    numbers.sort();
    numbers.unique();
    numbers.reverse();
    to << std::setfill('.') << std::setw(7) << std::left << "left" << std::internal << std::setw(7) << -42 << std::setfill(' ') << '\n';
    to << std::hex << std::showbase << 255 << std::dec << ' ' << std::scientific << std::setprecision(2) << 12345.678 << ' ';
    to.unsetf(std::ios::floatfield);
    to << std::boolalpha << from.eof() << ' ' << std::complex<double>(1, -2) << '\n';
    std::copy(numbers.begin(), numbers.end(), std::ostream_iterator<int>(to, " "));
    to << std::endl;
}

int main(int argc, char **argv)
{
    std::ios::sync_with_stdio(false);
    bsp_begin(bsp_nprocs());
    const int rank = bsp_pid(), ranks = bsp_nprocs();
    auto rows = rows_of(argc > 1 ? argv[1] : "points.csv", rank, ranks);
    std::atomic<int> count(0);
    std::vector<double> sums(2 * ranks), mine(2);
    bsp_push_reg(sums.data(), static_cast<int>(sums.size() * sizeof(double)));
    bsp_sync();
    for (const auto &row : *rows) {
        count++;
        for (std::size_t i = 0; i < 2; ++i)
            mine[i] += row.at(i);
    }
    bsp_put(0, mine.data(), sums.data(), 2 * rank * static_cast<int>(sizeof(double)), 2 * sizeof(double));
    int rows_here = count, tag = 0;
    bsp_send(0, &tag, &rows_here, sizeof rows_here);
    bsp_sync();
    if (rank == 0) {
        int all = 0, messages;
        for (bsp_qsize(&messages, nullptr); messages > 0; --messages) {
            bsp_move(&rows_here, sizeof rows_here);
            all += rows_here;
        }
        std::ofstream out("means.txt");
        for (int i = 0; i < 2; ++i) {
            double sum = 0;
            for (int from = 0; from < ranks; ++from)
                sum += sums[2 * from + i];
            out << "column " << i << ": " << std::fixed << std::setprecision(3) << sum / all << '\n';
        }
        out.close();
        std::ifstream again("means.txt");
        std::string word;
        again >> word;
        std::cout << all << " rows, " << word << again.rdbuf();
        std::istringstream numbers("30 10 20 10");
        write_forms(std::cout, numbers);
    }
    bsp_end();
    return 0;
}
