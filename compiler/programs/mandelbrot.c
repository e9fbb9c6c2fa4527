/* A picture of the Mandelbrot set in fixed point: a word of output for each line. */
#include "input.h"
#include "multiscalar.h"

#define ONE (1 << 12)

int main(void)
{
    for (int line = 0; line < 9; line++) {
        unsigned row = 0;
        for (int column = 0; column < 24; column++) {
            int x0 = INPUT(-2, -3) * ONE / INPUT(1, 2) + column * ONE / 8, y0 = -ONE + line * ONE / 4, x = 0, y = 0, n = 0;
            while (n < 16) {
                int xx = x * x / ONE, yy = y * y / ONE;
                if (xx + yy > 4 * ONE)
                    break;
                y = 2 * x * y / ONE + y0;
                x = xx - yy + x0;
                n++;
            }
            row = row << 1 | (n == 16);
        }
        out(row);
    }
    return 0;
}
