// optional, variant, any and string_view, of C++17.
#include <bsp.h>

#include <any>
#include <iostream>
#include <optional>
#include <string>
#include <string_view>
#include <variant>

static std::optional<int> half(int it)
{
    return it % 2 == 0 ? std::optional<int>(it / 2) : std::nullopt;
}

int main()
{
    bsp_begin(bsp_nprocs());
    std::cout << half(bsp_pid()).value_or(-1) << ' ';
    std::variant<int, std::string> either = std::string("text");
    std::visit([](const auto &it) { std::cout << it << ' '; }, either);
    std::string_view view = "a view of it";
    std::cout << view.substr(2, 4) << ' ';
    try {
        std::cout << std::get<int>(either);
    } catch (const std::bad_variant_access &) {
        std::cout << "no number ";
    }
    std::any any = 2.5;
    try {
        std::cout << std::any_cast<int>(any);
    } catch (const std::bad_any_cast &) {
        std::cout << "no int ";
    }
    try {
        std::cout << half(1).value();
    } catch (const std::bad_optional_access &) {
        std::cout << "nothing\n";
    }
    bsp_end();
}
