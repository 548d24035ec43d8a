// Accounts with a hierarchy of exceptions, thrown again with more in them, and checked by unique pointers that give all back.
#include <bsp.h>

#include <cstdio>
#include <exception>
#include <memory>
#include <stdexcept>
#include <string>
#include <vector>

struct Refusal : std::runtime_error {
    using std::runtime_error::runtime_error;
    virtual int code() const { return 1; }
};
struct TooLittle : Refusal {
    int lacking;
    explicit TooLittle(int by) : Refusal("too little"), lacking(by) {}
    int code() const override { return lacking; }
};

class Account {
    int balance_;

public:
    static int alive;
    explicit Account(int balance) : balance_(balance) { ++alive; }
    ~Account() { --alive; }
    void take(int amount)
    {
        if (amount <= 0)
            throw Refusal("nothing to take");
        if (amount > balance_)
            throw TooLittle(amount - balance_);
        balance_ -= amount;
    }
    int balance() const noexcept { return balance_; }
};
int Account::alive = 0;

static int served(Account &account, int amount)
try {
    account.take(amount);
    return 0;
} catch (const Refusal &refusal) {
    std::throw_with_nested(std::logic_error("amount " + std::to_string(amount)));
}

int main()
{
    bsp_begin(bsp_nprocs());
    int s = bsp_pid(), p = bsp_nprocs();
    std::vector<int> codes(p, -1);
    bsp_push_reg(codes.data(), p * static_cast<int>(sizeof(int)));
    bsp_sync();
    int code = 0;
    try {
        auto account = std::make_unique<Account>(100);
        for (int amount : {30, 20 * s, 60 * s})
            served(*account, amount);
    } catch (const std::exception &outer) {
        try {
            std::rethrow_if_nested(outer);
        } catch (const Refusal &inner) {
            code = inner.code();
            std::printf("rank %d: %s: %s, %d; %d alive\n", s, outer.what(), inner.what(), code, Account::alive);
        }
    }
    for (int t = 0; t < p; ++t)
        bsp_put(t, &code, codes.data(), s * static_cast<int>(sizeof code), sizeof code);
    bsp_sync();
    if (s == p - 1)
        for (int it : codes)
            std::printf("%d\n", it);
    bsp_end();
    return 0;
}
