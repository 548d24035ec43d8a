// A hierarchy of exceptions, one in another, and one that is thrown on.
#include <bsp.h>

#include <cstdio>
#include <exception>
#include <string>

struct Failure : std::exception {
    int code;
    explicit Failure(int it) : code(it) {}
    const char *what() const noexcept override { return "failure"; }
};
struct Fatal : Failure {
    using Failure::Failure;
    const char *what() const noexcept override { return "fatal"; }
};

static void work(int way)
{
    if (way == 0)
        throw Failure(1);
    if (way == 1)
        throw Fatal(2);
    if (way == 2)
        throw 3;
    if (way == 3)
        throw std::string("a text");
}

static void once_more(int way)
{
    try {
        work(way);
    } catch (Failure &it) {
        it.code += 10;
        throw;
    }
}

int main(int argc, char **argv)
{
    bsp_begin(bsp_nprocs());
    for (int way = 0; way < 5; way++)
        try {
            once_more(way);
            std::printf("%d went well\n", way);
        } catch (const Fatal &it) {
            std::printf("fatal %d %s\n", it.code, it.what());
        } catch (const Failure &it) {
            std::printf("failure %d %s\n", it.code, it.what());
        } catch (int it) {
            std::printf("int %d\n", it);
        } catch (...) {
            std::printf("something\n");
        }
    std::exception_ptr kept;
    try {
        throw Fatal(bsp_pid());
    } catch (...) {
        kept = std::current_exception();
    }
    try {
        std::rethrow_exception(kept);
    } catch (const Failure &it) {
        std::printf("%s %d\n", it.what(), it.code);
    }
    bsp_end();
    return 0;
}
