/* The longest way to 1 of the numbers below 60, by Collatz' rule. */
#include "input.h"
#include "multiscalar.h"

int main(void)
{
    unsigned best = 0, from = 0, total = 0;
    for (unsigned begin = 1; begin < INPUT(60, 75); begin++) {
        unsigned steps = 0;
        for (unsigned n = begin; n != 1; steps++)
            n = n & 1 ? 3 * n + 1 : n >> 1;
        total += steps;
        if (steps > best) {
            best = steps;
            from = begin;
        }
    }
    out(from);
    out(best);
    out(total);
    return 0;
}
