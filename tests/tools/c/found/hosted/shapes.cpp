// Types as they are at run time: dynamic_cast to the side, to a virtual base, and typeid.
#include <bsp.h>

#include <cstdio>
#include <memory>
#include <typeinfo>
#include <vector>

struct Named {
    virtual ~Named() = default;
    virtual const char *name() const { return "named"; }
};
struct Shape : virtual Named {
    virtual double area() const = 0;
};
struct Drawn {
    virtual ~Drawn() = default;
    int colour = 7;
};
struct Circle : Shape {
    double r;
    explicit Circle(double it) : r(it) {}
    double area() const override { return 3 * r * r; }
    const char *name() const override { return "circle"; }
};
struct Box : Shape, Drawn {
    double a, b;
    Box(double x, double y) : a(x), b(y) {}
    double area() const override { return a * b; }
};

int main()
{
    bsp_begin(bsp_nprocs());
    std::vector<std::unique_ptr<Shape>> shapes;
    shapes.emplace_back(new Circle(bsp_pid() + 1));
    shapes.emplace_back(new Box(2, bsp_pid() + 0.5));
    for (const auto &it : shapes) {
        const Drawn *drawn = dynamic_cast<const Drawn *>(it.get());
        const Named *named = dynamic_cast<const Named *>(it.get());
        std::printf("%s %.2f colour %d, a box: %d\n", named->name(), it->area(), drawn ? drawn->colour : -1, typeid(*it) == typeid(Box));
    }
    try {
        dynamic_cast<Circle &>(*shapes[1]).r = 1;
    } catch (const std::bad_cast &) {
        std::printf("no circle\n");
    }
    bsp_end();
}
