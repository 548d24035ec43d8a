/* Converts double to decimal digits and back, with integers only. picolibc 1.8 gives at most 17 digits of a double. */
#include "digits.h"

#include <string.h>

const struct floating bsp_float = {23, -126, 127}, bsp_double = {52, -1022, 1023};

/* Of a double m * 2^e, with a whole number m: the largest and the smallest e, and how many bits m has. */
enum { MOST_EXPONENT = 971, LEAST_EXPONENT = -1074, BITS = 53 };

static void put_digit(struct digits *to, unsigned digit)
{
    if (to->count == 0 && digit == 0)
        to->point--;
    else if (to->count < MOST_DIGITS)
        to->digit[to->count++] = (unsigned char)digit;
    else
        to->is_more |= digit != 0;
}

static void put_digits(struct digits *to, uint32_t number, int count)
{
    unsigned char digits[9];
    for (int i = count; i-- > 0; number /= 10)
        digits[i] = (unsigned char)(number % 10);
    for (int i = 0; i < count; i++)
        put_digit(to, digits[i]);
}

/* The digits of the whole number m * 2^e, in parts of 16 bits, of which a division takes one instruction. */
static void put_whole(struct digits *to, uint64_t m, int e)
{
    enum { TEN_THOUSAND = 10000, MOST_PARTS = (MOST_EXPONENT + BITS) / 16 + 2, MOST_FOURS = 78 };
    uint16_t parts[MOST_PARTS], fours[MOST_FOURS];
    int used = e / 16, count = 0;
    memset(parts, 0, (size_t)used * sizeof *parts);
    for (uint32_t low = (uint32_t)m, high = (uint32_t)(m >> 32), shift = (uint32_t)e % 16, carry = 0, i = 0; i < 5; i++) {
        uint32_t part = i == 0 ? low & 0xffff : i == 1 ? low >> 16 : i == 2 ? high & 0xffff : i == 3 ? high >> 16 : 0;
        carry |= part << shift;
        parts[used++] = (uint16_t)carry;
        carry >>= 16;
    }
    while (used > 0 && parts[used - 1] == 0)
        used--;
    while (used > 0) {
        uint32_t rest = 0;
        for (int i = used; i-- > 0;) {
            rest = rest << 16 | parts[i];
            parts[i] = (uint16_t)(rest / TEN_THOUSAND);
            rest %= TEN_THOUSAND;
        }
        fours[count++] = (uint16_t)rest;
        while (used > 0 && parts[used - 1] == 0)
            used--;
    }
    to->point = 4 * count;
    while (count-- > 0)
        put_digits(to, fours[count], 4);
}

/* The digits behind the point of m / 2^count, up to one more than are wanted; is_more says whether others follow. Each multiplication by
   10^9 gives nine of them, and leaves nine bits fewer at the end. */
static void put_fraction(struct digits *to, uint64_t m, int count, int places, int is_fixed)
{
    enum { BILLION = 1000000000, MOST_WORDS = (-LEAST_EXPONENT + 31) / 32 + 2 };
    uint32_t words[MOST_WORDS];
    int used = (count + 31) / 32, shift = 32 * used - count, behind = 0;
    uint32_t top = shift > 0 ? (uint32_t)(m >> (64 - shift)) : 0;
    memset(words, 0, (size_t)(used + 1) * sizeof *words);
    /* The lowest bit of m stands at the end of the last word, after a shift; what is above the point is none of the fraction. */
    m <<= shift;
    words[used - 1] = (uint32_t)m;
    if (used >= 2)
        words[used - 2] = (uint32_t)(m >> 32);
    if (used >= 3)
        words[used - 3] = top;
    for (;;) {
        uint32_t carry = 0;
        while (used > 0 && words[used - 1] == 0)
            used--;
        if (used == 0)
            return;
        if ((is_fixed ? behind : to->count) > places) {
            to->is_more = 1;
            return;
        }
        for (int i = used; i-- > 0;) {
            uint64_t product = (uint64_t)words[i] * BILLION + carry;
            words[i] = (uint32_t)product;
            carry = (uint32_t)(product >> 32);
        }
        put_digits(to, carry, 9);
        behind += 9;
    }
}

/* Whether what stands behind the first `kept` digits makes the last of them greater by one. */
static int is_rounded_up(const struct digits *it, int kept)
{
    if (kept < 0 || kept >= it->count)
        return 0;
    if (it->digit[kept] != 5)
        return it->digit[kept] > 5;
    for (int i = kept + 1; i < it->count; i++)
        if (it->digit[i] != 0)
            return 1;
    return it->is_more || (kept > 0 && it->digit[kept - 1] % 2 == 1);
}

static void round_to(struct digits *it, int kept)
{
    int is_up = is_rounded_up(it, kept);
    if (kept < it->count)
        it->count = kept < 0 ? 0 : kept;
    if (!is_up)
        return;
    while (it->count > 0 && it->digit[it->count - 1] == 9)
        it->count--;
    if (it->count > 0) {
        it->digit[it->count - 1]++;
        return;
    }
    it->digit[0] = 1;
    it->count = 1;
    it->point++;
}

void bsp_digits_of(struct digits *to, double number, int places, int is_fixed)
{
    uint64_t bits = bsp_bits_of(number), m = bits & 0xfffffffffffffu;
    int exponent = (int)(bits >> 52) & 0x7ff, e = exponent - 1075;
    if (exponent > 0)
        m |= (uint64_t)1 << 52;
    else
        e++;
    to->count = to->point = to->is_more = 0;
    if (m == 0)
        return;
    if (e >= 0)
        put_whole(to, m, e);
    else {
        uint64_t whole = e > -64 ? m >> -e : 0;
        if (whole > 0)
            put_whole(to, whole, 0);
        if (e > -64)
            m -= whole << -e;
        if (m > 0)
            put_fraction(to, m, -e, places, is_fixed);
    }
    round_to(to, is_fixed ? to->point + places : places);
}

/* Multiplies by 2^count, count up to 27. */
static void shift_left(struct digits *it, int count)
{
    uint32_t carry = 0;
    unsigned char above[9];
    int more = 0;
    for (int i = it->count; i-- > 0;) {
        carry += (uint32_t)it->digit[i] << count;
        it->digit[i] = (unsigned char)(carry % 10);
        carry /= 10;
    }
    for (; carry > 0; carry /= 10)
        above[more++] = (unsigned char)(carry % 10);
    for (int i = it->count + more; i-- > MOST_DIGITS;)
        it->is_more |= it->digit[i - more] != 0;
    it->count = it->count + more < MOST_DIGITS ? it->count + more : MOST_DIGITS;
    memmove(it->digit + more, it->digit, (size_t)(it->count - more));
    for (int i = 0; i < more; i++)
        it->digit[i] = above[more - 1 - i];
    it->point += more;
}

/* Divides by 2^count, count up to 27. */
static void shift_right(struct digits *it, int count)
{
    uint32_t rest = 0, mask = ((uint32_t)1 << count) - 1;
    int read = 0, written = 0;
    for (; rest >> count == 0; read++)
        rest = 10 * rest + (read < it->count ? it->digit[read] : 0);
    it->point -= read - 1;
    for (; read < it->count; read++) {
        it->digit[written++] = (unsigned char)(rest >> count);
        rest = 10 * (rest & mask) + it->digit[read];
    }
    for (; rest > 0; rest = 10 * (rest & mask)) {
        if (written < MOST_DIGITS)
            it->digit[written++] = (unsigned char)(rest >> count);
        else
            it->is_more |= rest >> count != 0;
    }
    it->count = written;
}

static void drop_zeros(struct digits *it)
{
    while (it->count > 0 && it->digit[it->count - 1] == 0)
        it->count--;
}

/* By how many bits a number with its point so far from its first digit may be shifted, so that it does not pass the point. */
static int step(int distance)
{
    static const unsigned char steps[] = {1, 3, 6, 9, 13, 16, 19, 23, 26};
    return distance < (int)sizeof steps ? steps[distance] : 27;
}

uint64_t bsp_nearest(struct digits *from, const struct floating *kind)
{
    uint64_t whole = 0, infinite = (uint64_t)(kind->most - kind->least + 2) << kind->bits;
    int exponent = -1;
    drop_zeros(from);
    if (from->count == 0 || from->point < -400)
        return 0;
    if (from->point > 400)
        return infinite;
    /* Comes to a number from 1/2 on and below 1, times 2^(exponent + 1). */
    while (from->point > 0) {
        int count = step(from->point);
        shift_right(from, count);
        exponent += count;
    }
    while (from->point < 0 || from->digit[0] < 5) {
        int count = step(-from->point);
        shift_left(from, count);
        exponent -= count;
    }
    /* One that is too small for a 1 in front has its bits shifted out. */
    while (exponent < kind->least) {
        int count = kind->least - exponent < 27 ? kind->least - exponent : 27;
        shift_right(from, count);
        exponent += count;
    }
    for (int left = kind->bits + 1; left > 0; left -= 27)
        shift_left(from, left < 27 ? left : 27);
    for (int i = 0; i < from->point; i++)
        whole = 10 * whole + (i < from->count ? from->digit[i] : 0);
    whole += (uint64_t)is_rounded_up(from, from->point);
    /* A 1 in front is told by the exponent, to which it is added; so is one that rounding carried there. */
    whole += (uint64_t)(exponent - kind->least) << kind->bits;
    return whole < infinite ? whole : infinite;
}
