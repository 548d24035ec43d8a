#pragma once
#include <bsp.h>
#include <vector>
#include <type_traits>
namespace comm {
class Session { public: Session(); ~Session(); Session(const Session &) = delete; static int rank(); static int size(); };
template <typename T> std::vector<T> allgather(const T &x) {
    static_assert(std::is_trivially_copyable<T>::value, "bytes are sent");
    std::vector<T> all(Session::size());
    bsp_push_reg(all.data(), int(all.size() * sizeof(T)));
    bsp_sync();
    for (int t = 0; t < Session::size(); ++t) bsp_put(t, &x, all.data(), Session::rank() * int(sizeof(T)), sizeof(T));
    bsp_pop_reg(all.data());
    bsp_sync();
    return all;
}
}
