/* Returns the number of tests that failed, below zero where all did. */
#include "input.h"
#include "multiscalar.h"

static int failed;

static void check(int is_right)
{
    failed += !is_right;
    out(is_right);
}

int main(void)
{
    for (int n = 0; n < INPUT(20, 30); n++)
        check(n * n % 7 != 2);
    return failed == 20 ? -1 : failed;
}
