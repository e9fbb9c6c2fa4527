/* Returns nothing, which is 0 of main. */
#include "input.h"
#include "multiscalar.h"

int main(void)
{
    for (int n = INPUT(5, 8); n; n--)
        out(n * 1000003);
}
