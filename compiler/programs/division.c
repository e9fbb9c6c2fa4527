/* Quotients and remainders with all signs; the corners of words; divisions by constants. */
#include "input.h"
#include "multiscalar.h"

static const int samples[] = {1, -1, 2, -2, 3, INPUT(7, 81), -7, INPUT(10, 555), INPUT(100, 999999), -100, 32767, -32768, 65536, 1000000007, -1000000007, 2147483647, -2147483647 - 1};

int main(void)
{
    unsigned signed_hash = 0, unsigned_hash = 0, constant_hash = 0;
    int count = sizeof samples / sizeof *samples;
    for (int n = 0; n < count; n++)
        for (int k = 0; k < count; k++) {
            int a = samples[n], b = samples[k];
            unsigned ua = a, ub = b;
            if (!(ua == 0x80000000 && b == -1))
                signed_hash = signed_hash * 31 + (unsigned)(a / b) * 7 + a % b;
            unsigned_hash = unsigned_hash * 31 + ua / ub * 7 + ua % ub;
        }
    for (int n = 0; n < count; n++)
        constant_hash = constant_hash * 31 + samples[n] / 10 + samples[n] % 7 + (unsigned)samples[n] / 1000 + samples[n] / 8;
    out(signed_hash);
    out(unsigned_hash);
    out(constant_hash);
    return 0;
}
