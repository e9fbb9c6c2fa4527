/* How many ways there are to put n queens on a board of n by n, for n from 1 to 6; with bits, and recursive. */
#include "input.h"
#include "multiscalar.h"

static unsigned ways(unsigned all, unsigned columns, unsigned left, unsigned right)
{
    if (columns == all)
        return 1;
    unsigned count = 0;
    for (unsigned free = all & ~(columns | left | right); free; free &= free - 1) {
        unsigned queen = free & -free;
        count += ways(all, columns | queen, (left | queen) << 1, (right | queen) >> 1);
    }
    return count;
}

int main(void)
{
    for (int size = 1; size <= INPUT(6, 5); size++)
        out(ways((1u << size) - 1, 0, 0, 0));
    return 0;
}
