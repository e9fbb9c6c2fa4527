/* Ends by exit, from inside two calls; what main would return is another number. */
#include <stdlib.h>

#include "input.h"
#include "multiscalar.h"

static int depth(int n)
{
    if (n > INPUT(12, 9))
        exit(n + 30);
    out(n);
    return depth(n + 3) + 1;
}

int main(void)
{
    return depth(1);
}
