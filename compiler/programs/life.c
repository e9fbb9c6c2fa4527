/* Conway's game of life on a torus of 16 by 16: a glider, and how many cells live. */
#include "input.h"
#include "multiscalar.h"

#define SIZE 16

static unsigned short rows[SIZE], next[SIZE];

static unsigned turned(unsigned row, int by)
{
    return (row << by | row >> (SIZE - by)) & 0xFFFF;
}

int main(void)
{
    rows[1] = INPUT(2, 6) << 5;
    rows[2] = INPUT(1, 3) << 5;
    rows[3] = INPUT(7, 2) << 5;
    for (int generation = 0; generation < 8; generation++) {
        for (int n = 0; n < SIZE; n++) {
            unsigned above = rows[(n + SIZE - 1) % SIZE], here = rows[n], below = rows[(n + 1) % SIZE];
            unsigned around[8] = {turned(above, 1), above, turned(above, 15), turned(here, 1), turned(here, 15), turned(below, 1), below, turned(below, 15)};
            unsigned one = 0, two = 0, four = 0;
            for (int k = 0; k < 8; k++) {
                unsigned carry = one & around[k];
                one ^= around[k];
                four |= two & carry;
                two ^= carry;
            }
            next[n] = two & ~four & (one | here);
        }
        for (int n = 0; n < SIZE; n++)
            rows[n] = next[n];
    }
    int living = 0;
    for (int n = 0; n < SIZE; n++) {
        living += __builtin_popcount(rows[n]);
        if (rows[n])
            out(n << 16 | rows[n]);
    }
    out(living);
    return 0;
}
