/* Counts bits in five ways, turns words around, and finds powers of two. */
#include "input.h"
#include "multiscalar.h"

static int one_by_one(unsigned value)
{
    int count = 0;
    for (; value; value >>= 1)
        count += value & 1;
    return count;
}

static int by_clearing(unsigned value)
{
    int count = 0;
    for (; value; value &= value - 1)
        count++;
    return count;
}

static int in_parallel(unsigned value)
{
    value -= value >> 1 & 0x55555555;
    value = (value & 0x33333333) + (value >> 2 & 0x33333333);
    return ((value + (value >> 4)) & 0x0f0f0f0f) * 0x01010101 >> 24;
}

static int by_table(unsigned value)
{
    static const unsigned char table[16] = {0, 1, 1, 2, 1, 2, 2, 3, 1, 2, 2, 3, 2, 3, 3, 4};
    int count = 0;
    for (; value; value >>= 4)
        count += table[value & 15];
    return count;
}

static unsigned turned_around(unsigned value)
{
    unsigned made = 0;
    for (int n = 0; n < 32; n++, value >>= 1)
        made = made << 1 | (value & 1);
    return made;
}

int main(void)
{
    unsigned sum = 0, value = INPUT(1, 4711);
    for (int n = 0; n < 24; n++) {
        value = value * 1664525 + 1013904223;
        int count = by_clearing(value);
        if (count != one_by_one(value) || count != in_parallel(value) || count != by_table(value) || count != __builtin_popcount(value))
            out(0xBAD);
        sum += count << (n & 7);
    }
    out(sum);
    out(turned_around(0x12345678));
    out(__builtin_clz(4096) << 8 | __builtin_ctz(4096));
    out(__builtin_clzll(1ull << 40) << 8 | __builtin_ctzll(1ull << 40));
    return 0;
}
