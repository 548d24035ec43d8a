// Shortest ways with a queue by priority, from each rank's own node.
#include <bsp.h>

#include <iostream>
#include <limits>
#include <queue>
#include <utility>
#include <vector>

using Edge = std::pair<int, int>;

int main()
{
    const int n = 9;
    std::vector<std::vector<Edge>> edges(n);
    for (int i = 0; i < n; i++) {
        edges[i].push_back({(i * 4 + 1) % n, 2 + i % 3});
        edges[i].push_back({(i + 3) % n, 5});
    }
    bsp_begin(bsp_nprocs());
    std::vector<int> far(n, std::numeric_limits<int>::max());
    std::priority_queue<Edge, std::vector<Edge>, std::greater<Edge>> next;
    next.push({far[bsp_pid()] = 0, bsp_pid()});
    while (!next.empty()) {
        auto [length, node] = next.top();
        next.pop();
        if (length == far[node])
            for (auto [to, cost] : edges[node])
                if (length + cost < far[to])
                    next.push({far[to] = length + cost, to});
    }
    for (int it : far)
        std::cout << (it == std::numeric_limits<int>::max() ? -1 : it) << ' ';
    std::cout << std::endl;
    bsp_end();
}
