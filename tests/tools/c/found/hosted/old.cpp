// C++ of the nineties: strstream, auto pointers by hand, and a global object.
#include <bsp.h>
#include <iostream>
#include <strstream>

struct Counter {
    int count;
    Counter() : count(0) {}
} counter;

template <class T> class Stack {
    T items[16];
    int top;

public:
    Stack() : top(0) {}
    void push(const T &it)
    {
        if (top == 16)
            throw "full";
        items[top++] = it;
        counter.count++;
    }
    T pop() { return items[--top]; }
};

int main()
{
    bsp_begin(bsp_nprocs());
    Stack<double> stack;
    try {
        for (int i = 0;; i++)
            stack.push(i * 1.5 + bsp_pid());
    } catch (const char *text) {
        char room[100];
        std::ostrstream out(room, sizeof room);
        out << text << " at " << counter.count << " with " << stack.pop() << std::ends;
        std::cout << room << std::endl;
    }
    bsp_end();
    return 0;
}
