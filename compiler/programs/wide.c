/* Words of 64 bits: products, quotients, shifts, comparisons. */
#include "input.h"
#include "multiscalar.h"

typedef unsigned long long twice;

static void both(twice value)
{
    out(value >> 32);
    out(value);
}

int main(void)
{
    volatile twice a = INPUT(0xFEDCBA9876543210ull, 0x0123456789ABCDEFull), b = INPUT(0x123456789ull, 0x98765ull);
    volatile long long c = INPUT(-1234567890123ll, 99887766554433ll), d = INPUT(98765, -77);
    both(a * b);
    both(a / b);
    both(a % b);
    both(c / d);
    both(c % d);
    both(c * d);
    for (int by = 0; by < 64; by += 9)
        both((a << by) ^ (a >> by) ^ (twice)(c >> by));
    out((a < b) | (c < d) << 1 | ((long long)a < c) << 2 | (a == b) << 3);
    twice factorial = 1;
    for (unsigned n = 2; n <= 20; n++)
        factorial *= n;
    both(factorial);
    return 0;
}
