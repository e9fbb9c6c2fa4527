/* Sums a function of each number, and keeps the largest value. */
#include "multiscalar.h"

static unsigned mixed(unsigned value)
{
    value ^= value << 13;
    value ^= value >> 17;
    value ^= value << 5;
    return value;
}

int main(void)
{
    unsigned sum = 0, largest = 0;
    for (unsigned n = 0; n < 100;) {
        unsigned now = n;
        SETTLE(now);
        n++;
        SETTLE(n);
        unsigned value = mixed(mixed(now)) >> 4;
        sum += value;
        if (value > largest)
            largest = value;
    }
    out(sum);
    out(largest);
    return 0;
}
