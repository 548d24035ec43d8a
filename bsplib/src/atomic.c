/* The functions that GCC calls for atomic operations: plain operations, since a node has one thread. */
#include <stdint.h>
#include <string.h>

#define NAMED(name) __asm__(#name)

#define OPERATION(type, size, kind, change) \
    type bsp_fetch_##kind##_##size(volatile void *at, type value, int order) NAMED(__atomic_fetch_##kind##_##size); \
    type bsp_fetch_##kind##_##size(volatile void *at, type value, int order) \
    { \
        volatile type *place = at; \
        type before = *place; \
        (void)order; \
        *place = (type)(change); \
        return before; \
    }

#define OPERATIONS(type, size) \
    type bsp_load_##size(const volatile void *at, int order) NAMED(__atomic_load_##size); \
    type bsp_load_##size(const volatile void *at, int order) \
    { \
        (void)order; \
        return *(const volatile type *)at; \
    } \
    void bsp_store_##size(volatile void *at, type value, int order) NAMED(__atomic_store_##size); \
    void bsp_store_##size(volatile void *at, type value, int order) \
    { \
        (void)order; \
        *(volatile type *)at = value; \
    } \
    _Bool bsp_compare_##size(volatile void *at, void *expected, type value, _Bool weak, int order, int other) \
        NAMED(__atomic_compare_exchange_##size); \
    _Bool bsp_compare_##size(volatile void *at, void *expected, type value, _Bool weak, int order, int other) \
    { \
        volatile type *place = at; \
        type before = *place, wanted; \
        (void)weak, (void)order, (void)other; \
        memcpy(&wanted, expected, sizeof wanted); \
        if (before == wanted) \
            *place = value; \
        else \
            memcpy(expected, &before, sizeof before); \
        return before == wanted; \
    } \
    type bsp_exchange_##size(volatile void *at, type value, int order) NAMED(__atomic_exchange_##size); \
    type bsp_exchange_##size(volatile void *at, type value, int order) \
    { \
        volatile type *place = at; \
        type before = *place; \
        (void)order; \
        *place = value; \
        return before; \
    } \
    OPERATION(type, size, add, before + value) \
    OPERATION(type, size, sub, before - value) \
    OPERATION(type, size, and, before & value) \
    OPERATION(type, size, or, before | value) \
    OPERATION(type, size, xor, before ^ value) \
    OPERATION(type, size, nand, ~(before & value))

OPERATIONS(uint8_t, 1)
OPERATIONS(uint16_t, 2)
OPERATIONS(uint32_t, 4)
OPERATIONS(uint64_t, 8)
