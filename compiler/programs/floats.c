/* Floating point, which run-time routines compute: the bits of sums, products, quotients, conversions and comparisons. */
#include "input.h"
#include "multiscalar.h"

static const float samples[] = {0.0f, 1.0f, -1.5f, INPUT(3.1415927f, 0.7f), INPUT(1e10f, -33.25f), -2.5e-7f, 1e-40f, 123456.789f};
static volatile double half = 0.5;

static void put(double value)
{
    union { double value; unsigned long long bits; } is = {value};
    out(is.bits >> 32);
    out(is.bits);
}

static unsigned bits_of(float value)
{
    union { float value; unsigned bits; } is = {value};
    return is.bits;
}

int main(void)
{
    unsigned sums = 0, products = 0, quotients = 0, orders = 0;
    for (int n = 0; n < 8; n++)
        for (int k = 0; k < 8; k++) {
            float a = samples[n], b = samples[k];
            sums = sums * 31 + bits_of(a + b) + bits_of(a - b);
            products = products * 31 + bits_of(a * b);
            if (b != 0)
                quotients = quotients * 31 + bits_of(a / b);
            orders = orders * 3 + (a < b) + (a <= b) + (a == b) * 2;
        }
    out(sums);
    out(products);
    out(quotients);
    out(orders);
    double root = 1;
    for (int n = 0; n < 6; n++)
        root = (root + 2 / root) * half;
    put(root);
    put(root * root - 2);
    put((float)(root * 1e-3));
    double harmonic = 0;
    for (int n = 1; n <= 10; n++)
        harmonic += 1.0 / n;
    put(harmonic);
    out((int)(harmonic * 1000));
    out((unsigned)(root * 2e9));
    put((double)-123456789012345ll * half);
    out((int)(float)-16777217);
    return 0;
}
