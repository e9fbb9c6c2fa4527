/* The product of two matrices of 10 by 10, and its trace and sum. */
#include "input.h"
#include "multiscalar.h"

#define SIZE INPUT(10, 9)

static int left[SIZE][SIZE], right[SIZE][SIZE], product[SIZE][SIZE];

int main(void)
{
    for (int row = 0; row < SIZE; row++)
        for (int column = 0; column < SIZE; column++) {
            left[row][column] = row * 3 - column;
            right[row][column] = row ^ column;
        }
    int trace = 0, all = 0;
    for (int row = 0; row < SIZE; row++)
        for (int column = 0; column < SIZE; column++) {
            int sum = 0;
            for (int n = 0; n < SIZE; n++)
                sum += left[row][n] * right[n][column];
            product[row][column] = sum;
            all += sum;
            if (row == column)
                trace += sum;
        }
    out(trace);
    out(all);
    out(product[SIZE - 1][0]);
    return 0;
}
