/* The functions that map, set, their unordered kinds, lists and shared pointers of GCC's standard library need to be linked. map and set
   are red-black trees, and the unordered kinds are tables with a prime number of lists. GCC's library has these functions for the host
   alone. */
#include <list>
#include <map>
#include <memory>
#include <unordered_map>

namespace std {

/* The header of a tree has the root as its parent, and the first and the last node at its left and right. It is red, the root black. */
using Node = _Rb_tree_node_base;

static Node *next(Node *node)
{
    Node *parent;
    if (node->_M_right != nullptr)
        return Node::_S_minimum(node->_M_right);
    for (parent = node->_M_parent; node == parent->_M_right; parent = parent->_M_parent)
        node = parent;
    /* Behind the last node comes the header, also where that is the root. */
    return node->_M_right != parent ? parent : node;
}

static Node *previous(Node *node)
{
    Node *parent;
    if (node->_M_color == _S_red && node->_M_parent->_M_parent == node)
        return node->_M_right;
    if (node->_M_left != nullptr)
        return Node::_S_maximum(node->_M_left);
    for (parent = node->_M_parent; node == parent->_M_left; parent = parent->_M_parent)
        node = parent;
    return parent;
}

Node *_Rb_tree_increment(Node *node) noexcept { return next(node); }
const Node *_Rb_tree_increment(const Node *node) noexcept { return next(const_cast<Node *>(node)); }
Node *_Rb_tree_decrement(Node *node) noexcept { return previous(node); }
const Node *_Rb_tree_decrement(const Node *node) noexcept { return previous(const_cast<Node *>(node)); }

/* Puts another node, or none, where a node hangs. */
static void replace(Node *node, Node *by, Node &header)
{
    Node *parent = node->_M_parent;
    if (header._M_parent == node)
        header._M_parent = by;
    else if (parent->_M_left == node)
        parent->_M_left = by;
    else
        parent->_M_right = by;
    if (by != nullptr)
        by->_M_parent = parent;
}

/* Turns a node to one side, so that the child at the other side takes its place. */
static void turn(Node *node, bool to_left, Node &header)
{
    Node *child = to_left ? node->_M_right : node->_M_left;
    Node *&inner = to_left ? child->_M_left : child->_M_right;
    Node *&outer = to_left ? node->_M_right : node->_M_left;
    outer = inner;
    if (inner != nullptr)
        inner->_M_parent = node;
    replace(node, child, header);
    inner = node;
    node->_M_parent = child;
}

void _Rb_tree_insert_and_rebalance(const bool at_left, Node *node, Node *parent, Node &header) noexcept
{
    node->_M_parent = parent;
    node->_M_left = node->_M_right = nullptr;
    node->_M_color = _S_red;
    if (at_left) {
        parent->_M_left = node;
        if (parent == &header)
            header._M_parent = header._M_right = node;
        else if (parent == header._M_left)
            header._M_left = node;
    } else {
        parent->_M_right = node;
        if (parent == header._M_right)
            header._M_right = node;
    }
    while (node != header._M_parent && node->_M_parent->_M_color == _S_red) {
        Node *above = node->_M_parent->_M_parent;
        bool is_left = node->_M_parent == above->_M_left;
        Node *uncle = is_left ? above->_M_right : above->_M_left;
        if (uncle != nullptr && uncle->_M_color == _S_red) {
            node->_M_parent->_M_color = uncle->_M_color = _S_black;
            above->_M_color = _S_red;
            node = above;
            continue;
        }
        if (node == (is_left ? node->_M_parent->_M_right : node->_M_parent->_M_left)) {
            node = node->_M_parent;
            turn(node, is_left, header);
        }
        node->_M_parent->_M_color = _S_black;
        above->_M_color = _S_red;
        turn(above, !is_left, header);
    }
    header._M_parent->_M_color = _S_black;
}

/* Makes up for a black node that is missing on the way to `node`, which may be none, below `parent`. */
static void make_up(Node *node, Node *parent, Node &header)
{
    while (node != header._M_parent && (node == nullptr || node->_M_color == _S_black)) {
        bool is_left = node == parent->_M_left;
        Node *other = is_left ? parent->_M_right : parent->_M_left;
        if (other->_M_color == _S_red) {
            other->_M_color = _S_black;
            parent->_M_color = _S_red;
            turn(parent, is_left, header);
            other = is_left ? parent->_M_right : parent->_M_left;
        }
        Node *near = is_left ? other->_M_left : other->_M_right, *far = is_left ? other->_M_right : other->_M_left;
        bool is_near = near != nullptr && near->_M_color == _S_red, is_far = far != nullptr && far->_M_color == _S_red;
        if (!is_near && !is_far) {
            other->_M_color = _S_red;
            node = parent;
            parent = parent->_M_parent;
            continue;
        }
        if (!is_far) {
            near->_M_color = _S_black;
            other->_M_color = _S_red;
            turn(other, !is_left, header);
            far = other;
            other = near;
        }
        other->_M_color = parent->_M_color;
        parent->_M_color = _S_black;
        far->_M_color = _S_black;
        turn(parent, is_left, header);
        break;
    }
    if (node != nullptr)
        node->_M_color = _S_black;
}

Node *_Rb_tree_rebalance_for_erase(Node *const node, Node &header) noexcept
{
    Node *child, *parent;
    _Rb_tree_color lost = node->_M_color;
    if (header._M_left == node)
        header._M_left = node->_M_right != nullptr ? Node::_S_minimum(node->_M_right) : node->_M_parent;
    if (header._M_right == node)
        header._M_right = node->_M_left != nullptr ? Node::_S_maximum(node->_M_left) : node->_M_parent;
    if (node->_M_left != nullptr && node->_M_right != nullptr) {
        /* The next node takes its place and its colour. */
        Node *heir = Node::_S_minimum(node->_M_right);
        lost = heir->_M_color;
        child = heir->_M_right;
        parent = heir->_M_parent != node ? heir->_M_parent : heir;
        if (heir->_M_parent != node) {
            replace(heir, child, header);
            heir->_M_right = node->_M_right;
            heir->_M_right->_M_parent = heir;
        }
        replace(node, heir, header);
        heir->_M_left = node->_M_left;
        heir->_M_left->_M_parent = heir;
        heir->_M_color = node->_M_color;
    } else {
        child = node->_M_left != nullptr ? node->_M_left : node->_M_right;
        parent = node->_M_parent;
        replace(node, child, header);
    }
    if (lost == _S_black && header._M_parent != nullptr)
        make_up(child, parent, header);
    return node;
}

/* The hash of bytes by the method of Fowler, Noll and Vo. */
size_t _Hash_bytes(const void *bytes, size_t count, size_t seed)
{
    size_t hash = seed ^ 2166136261u;
    for (const unsigned char *at = static_cast<const unsigned char *>(bytes); count > 0; count--)
        hash = (hash ^ *at++) * 16777619u;
    return hash;
}

/* Without names of types there is one kind of tag. */
bool _Sp_make_shared_tag::_S_eq(const type_info &) noexcept { return true; }

namespace __detail {

/* A list is a ring of nodes, of which one stands for its end. */
void _List_node_base::_M_hook(_List_node_base *const behind) noexcept
{
    _M_next = behind;
    _M_prev = behind->_M_prev;
    behind->_M_prev->_M_next = this;
    behind->_M_prev = this;
}

void _List_node_base::_M_unhook() noexcept
{
    _M_prev->_M_next = _M_next;
    _M_next->_M_prev = _M_prev;
}

/* Takes the nodes from `first` up to the one before `last` out of their ring, and puts them before this one. */
void _List_node_base::_M_transfer(_List_node_base *const first, _List_node_base *const last) noexcept
{
    if (this == last)
        return;
    _List_node_base *final = last->_M_prev, *before = first->_M_prev;
    before->_M_next = last;
    last->_M_prev = before;
    first->_M_prev = _M_prev;
    _M_prev->_M_next = first;
    final->_M_next = this;
    _M_prev = final;
}

void _List_node_base::_M_reverse() noexcept
{
    _List_node_base *node = this;
    do {
        _List_node_base *after = node->_M_next;
        node->_M_next = node->_M_prev;
        node->_M_prev = after;
        node = after;
    } while (node != this);
}

/* Puts a ring, of which this node is the end, behind another end. */
static void move_ring(_List_node_base &from, _List_node_base &to)
{
    to = from;
    from._M_next = from._M_prev = &from;
    if (to._M_next == &from)
        to._M_next = to._M_prev = &to;
    else
        to._M_next->_M_prev = to._M_prev->_M_next = &to;
}

void _List_node_base::swap(_List_node_base &one, _List_node_base &other) noexcept
{
    _List_node_base kept;
    move_ring(one, kept);
    move_ring(other, one);
    move_ring(kept, other);
}

static bool is_prime(size_t number)
{
    for (size_t divisor = 3; divisor * divisor <= number; divisor += 2)
        if (number % divisor == 0)
            return false;
    return number % 2 == 1 || number == 2;
}

size_t _Prime_rehash_policy::_M_next_bkt(size_t wanted) const
{
    while (wanted < 2 || !is_prime(wanted))
        wanted++;
    _M_next_resize = static_cast<size_t>(static_cast<double>(wanted) * _M_max_load_factor);
    return wanted;
}

pair<bool, size_t> _Prime_rehash_policy::_M_need_rehash(size_t buckets, size_t elements, size_t more) const
{
    if (elements + more <= _M_next_resize)
        return {false, 0};
    size_t least = elements + more > 11 || _M_next_resize > 0 ? elements + more : 11;
    size_t wanted = static_cast<size_t>(static_cast<double>(least) / _M_max_load_factor) + 1;
    if (wanted > buckets)
        return {true, _M_next_bkt(wanted > 2 * buckets ? wanted : 2 * buckets)};
    _M_next_resize = static_cast<size_t>(static_cast<double>(buckets) * _M_max_load_factor);
    return {false, 0};
}

} // namespace __detail
} // namespace std
