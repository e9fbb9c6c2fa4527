/* Fibonacci numbers: in a loop, by double recursion, and of 64 bits. */
#include "input.h"
#include "multiscalar.h"

static unsigned recursive(unsigned n)
{
    return n < 2 ? n : recursive(n - 1) + recursive(n - 2);
}

int main(void)
{
    unsigned a = 0, b = 1;
    for (int n = 0; n < INPUT(47, 39); n++) {
        unsigned next = a + b;
        a = b;
        b = next;
    }
    out(a);
    out(recursive(INPUT(13, 12)));
    unsigned long long low = 0, high = 1;
    for (int n = 0; n < INPUT(90, 71); n++) {
        unsigned long long next = low + high;
        low = high;
        high = next;
    }
    out(low >> 32);
    out(low);
    return 0;
}
