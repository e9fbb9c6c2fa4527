/* Ackermann's function, the towers of Hanoi, and two functions that call each other. */
#include "input.h"
#include "multiscalar.h"

static unsigned ackermann(unsigned m, unsigned n)
{
    if (m == 0)
        return n + 1;
    return ackermann(m - 1, n == 0 ? 1 : ackermann(m, n - 1));
}

static unsigned hash;

static unsigned hanoi(unsigned disks, unsigned from, unsigned to, unsigned by)
{
    if (disks == 0)
        return 0;
    unsigned before = hanoi(disks - 1, from, by, to);
    hash = hash * 5 + from * 3 + to;
    return before + 1 + hanoi(disks - 1, by, to, from);
}

static int is_odd(unsigned n);

static int is_even(unsigned n)
{
    return n == 0 ? 1 : is_odd(n - 1);
}

static int is_odd(unsigned n)
{
    return n == 0 ? 0 : is_even(n - 1);
}

int main(void)
{
    out(ackermann(2, INPUT(6, 5)));
    out(hanoi(INPUT(7, 6), 0, 2, 1));
    out(hash);
    out(is_even(INPUT(30, 41)) * 2 + is_odd(INPUT(30, 41)));
    return 0;
}
