/* Sums a function of each number: rounds that need little of each other. */
#include "input.h"
#include "multiscalar.h"

static unsigned mixed(unsigned value)
{
    value ^= value << 13;
    value ^= value >> 17;
    value ^= value << 5;
    return value;
}

int main(void)
{
    unsigned sum = 0;
    for (unsigned n = 1; n <= INPUT(200, 163); n++)
        sum += mixed(mixed(n)) >> 4;
    out(sum);
    return 0;
}
