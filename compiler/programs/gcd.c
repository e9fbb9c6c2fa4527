/* Greatest common divisors by Euclid, with division and without. */
#include "input.h"
#include "multiscalar.h"

static unsigned by_division(unsigned a, unsigned b)
{
    while (b) {
        unsigned rest = a % b;
        a = b;
        b = rest;
    }
    return a;
}

static unsigned by_shifts(unsigned a, unsigned b)
{
    unsigned shift = 0;
    if (!a || !b)
        return a | b;
    for (; !((a | b) & 1); shift++) {
        a >>= 1;
        b >>= 1;
    }
    while (!(a & 1))
        a >>= 1;
    do {
        while (!(b & 1))
            b >>= 1;
        if (a > b) {
            unsigned kept = a;
            a = b;
            b = kept;
        }
        b -= a;
    } while (b);
    return a << shift;
}

int main(void)
{
    unsigned sum = 0;
    for (unsigned a = INPUT(100, 211); a < INPUT(110, 221); a++)
        for (unsigned b = 60; b < 66; b++) {
            sum += by_division(a * 6, b * 4);
            if (by_division(a, b) != by_shifts(a, b))
                out(0xBAD);
        }
    out(sum);
    out(by_division(3528, 3780));
    out(by_shifts(1u << 20, 3u << 12));
    return 0;
}
