/* Numbers by their bits. */
#include "show.h"

union number {
    double value;
    struct {
        uint32_t low, high;
    } words;
    unsigned char bytes[8];
};

union single {
    float value;
    uint32_t word;
    struct {
        unsigned digits : 23, exponent : 8, sign : 1;
    } fields;
};

static volatile uint32_t highs[] = {0, 0x00100000, 0x000FFFFF, 0x3FF00000, 0x7FEFFFFF, 0x7FF00000, 0x80000000, 0xC0080000, 0x43300000};

static union number __attribute__((noinline)) made(uint32_t low, uint32_t high)
{
    union number it;
    it.words.low = low;
    it.words.high = high;
    return it;
}

/* The square root of a reciprocal, as games have it. */
static float reciprocal_root(float x)
{
    union single it = {.value = x};
    it.word = 0x5F3759DF - (it.word >> 1);
    for (int i = 0; i < 3; i++)
        it.value *= 1.5f - 0.5f * x * it.value * it.value;
    return it.value;
}

int main(void)
{
    for (int i = 0; i < COUNT(highs); i++) {
        union number it = made(i % 2 ? 0 : 0x80000001, highs[i]);
        if (isnan(it.value))
            continue;
        show("made", it.value);
        it.value += 1;
        printf("%08x %08x, last byte %02x\n", (unsigned)it.words.high, (unsigned)it.words.low, it.bytes[7]);
        union single other = {.value = (float)it.value};
        printf("%u %u %06x\n", other.fields.sign, other.fields.exponent, (unsigned)other.fields.digits);
        other.fields.sign ^= 1;
        show_float("with another sign", other.value);
    }
    for (volatile int i = 1; i < 10; i++)
        show_float("1 / sqrt", reciprocal_root((float)i));
    /* A whole number by the digits of a double. */
    for (volatile int i = -3; i < 4; i++) {
        union number it = {.value = i * 0.75 + 0x1.8p+52};
        printf("%d\n", (int)it.words.low);
    }
    return 0;
}
