/* The atomic operations of C11, on each size: what they answer, and what they leave. */
#include <stdatomic.h>
#include <stdint.h>
#include <stdio.h>

#include <bsp.h>

#define TRIED(type, name, first, operand) \
    do { \
        static _Atomic type at; \
        type wanted = (type)(first); \
        atomic_init(&at, (type)(first)); \
        printf("%s:", name); \
        printf(" %d", (int)atomic_fetch_add(&at, (type)(operand))); \
        printf(" %d", (int)atomic_fetch_sub_explicit(&at, 3, memory_order_relaxed)); \
        printf(" %d", (int)atomic_fetch_or_explicit(&at, 0x55, memory_order_acquire)); \
        printf(" %d", (int)atomic_fetch_and_explicit(&at, 0x3c, memory_order_release)); \
        printf(" %d", (int)atomic_fetch_xor_explicit(&at, (type)-1, memory_order_acq_rel)); \
        printf(" %d", (int)atomic_exchange(&at, (type)(first))); \
        printf(" %d", atomic_compare_exchange_strong(&at, &wanted, 77)); \
        printf(" %d", atomic_compare_exchange_strong(&at, &wanted, 78)); \
        printf(" %d", (int)wanted); \
        while (!atomic_compare_exchange_weak(&at, &wanted, 79)) \
            ; \
        printf(" %d\n", (int)atomic_load(&at)); \
    } while (0)

int main(void)
{
    static atomic_flag flag = ATOMIC_FLAG_INIT;

    bsp_begin(bsp_nprocs());
    if (bsp_pid() == 0) {
        TRIED(int8_t, "8", 100, 27);
        TRIED(uint16_t, "16", 65535, 2);
        TRIED(int32_t, "32", -5, 2);
        TRIED(uint32_t, "32 without sign", 0xfffffffe, 3);
        TRIED(int64_t, "64", -5000000000, 5000000001);
        printf("flag: %d", atomic_flag_test_and_set(&flag));
        printf(" %d\n", atomic_flag_test_and_set(&flag));
    }
    bsp_end();
    return 0;
}
