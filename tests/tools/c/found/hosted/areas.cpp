// A wrapper of BSPlib in the way of C++: areas that register themselves, proxies for what is far, and a world with one rank each.
#include <array>
#include <cassert>
#include <initializer_list>
#include <iomanip>
#include <iostream>
#include <memory>
#include <sstream>
#include <stdexcept>
#include <string>

extern "C" {
#include <bsp.h>
}

namespace bulk {

class World {
    World() { bsp_begin(bsp_nprocs()); }
    ~World() { bsp_end(); }

public:
    World(const World&) = delete;
    World& operator=(const World&) = delete;
    static World& get() { static World world; return world; }
    int rank() const noexcept { return bsp_pid(); }
    int size() const noexcept { return bsp_nprocs(); }
    int next(int by = 1) const { return (rank() + size() + by) % size(); }
    void sync() const { bsp_sync(); }
};

template <typename T, std::size_t N>
class Coarray {
    std::unique_ptr<std::array<T, N>> data_ = std::make_unique<std::array<T, N>>();

    class Image {
        Coarray& area_;
        int rank_;
        class Place {
            Image& image_;
            std::size_t at_;
        public:
            Place(Image& image, std::size_t at) : image_(image), at_(at) {}
            void operator=(const T& value) { bsp_put(image_.rank_, &value, image_.area_.data_->data(), at_ * sizeof(T), sizeof(T)); }
            void read(T& to) { bsp_get(image_.rank_, image_.area_.data_->data(), at_ * sizeof(T), &to, sizeof(T)); }
        };
    public:
        Image(Coarray& area, int rank) : area_(area), rank_(rank) {}
        Place operator[](std::size_t i)
        {
            if (i >= N) {
                std::ostringstream why;
                why << "place " << i << " of " << N << " at rank " << rank_;
                throw std::out_of_range(why.str());
            }
            return Place(*this, i);
        }
    };

public:
    Coarray(std::initializer_list<T> values = {})
    {
        std::copy(values.begin(), values.end(), data_->begin());
        bsp_push_reg(data_->data(), sizeof(*data_));
        bsp_sync();
    }
    ~Coarray() { bsp_pop_reg(data_->data()); }
    Image operator()(int rank) { return Image(*this, rank); }
    T& operator[](std::size_t i) { return (*data_)[i]; }
    auto begin() const { return data_->begin(); }
    auto end() const { return data_->end(); }
};

} // namespace bulk

int main()
{
    auto& world = bulk::World::get();
    {
        bulk::Coarray<double, 4> xs{1.5, 2.5};
        bulk::Coarray<char, 8> letters;
        xs(world.next())[2] = world.rank() * 10.25;
        letters(world.next(-1))[world.rank()] = "abcdefgh"[world.rank()];
        double far = 0;
        xs(world.next(2))[1].read(far);
        world.sync();
        std::ostringstream line;
        line << std::setw(2) << world.rank() << " |" << std::fixed << std::setprecision(2);
        for (double it : xs)
            line << std::setw(8) << std::setfill('.') << it;
        line << " | " << std::scientific << far << " | " << std::boolalpha << (letters[world.next()] == static_cast<char>('a' + world.next()));
        std::cout << line.str() << '\n';
        try {
            xs(0)[7] = 1;
        } catch (const std::out_of_range& fault) {
            if (world.rank() == world.size() - 1)
                std::cerr << "fault: " << fault.what() << '\n', std::cout << "fault: " << std::quoted(fault.what()) << std::endl;
        }
        world.sync();
    }
    return 0;
}
