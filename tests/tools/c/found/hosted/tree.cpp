// A tree with shared and weak pointers, and a visitor.
#include <bsp.h>

#include <functional>
#include <iostream>
#include <memory>
#include <string>
#include <vector>

struct Node : std::enable_shared_from_this<Node> {
    std::string name;
    std::weak_ptr<Node> parent;
    std::vector<std::shared_ptr<Node>> children;
    static int alive;
    explicit Node(std::string it) : name(std::move(it)) { alive++; }
    ~Node() { alive--; }
    std::shared_ptr<Node> add(const std::string &it)
    {
        children.push_back(std::make_shared<Node>(it));
        children.back()->parent = shared_from_this();
        return children.back();
    }
    void visit(const std::function<void(const Node &, int)> &see, int depth = 0) const
    {
        see(*this, depth);
        for (const auto &it : children)
            it->visit(see, depth + 1);
    }
};
int Node::alive = 0;

int main()
{
    bsp_begin(bsp_nprocs());
    {
        auto root = std::make_shared<Node>("root" + std::to_string(bsp_pid()));
        auto left = root->add("left");
        left->add("leaf");
        root->add("right");
        root->visit([](const Node &it, int depth) { std::cout << std::string(depth * 2, ' ') << it.name << '\n'; });
        std::cout << left->parent.lock()->name << ' ' << Node::alive << '\n';
    }
    std::cout << Node::alive << '\n';
    bsp_end();
}
