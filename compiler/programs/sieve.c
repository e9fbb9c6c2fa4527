/* The sieve of Eratosthenes: how many primes there are below 2000, and their sum. */
#include "input.h"
#include "multiscalar.h"

#define LIMIT INPUT(2000, 1700)

static unsigned char composite[LIMIT];

int main(void)
{
    unsigned count = 0, sum = 0;
    for (unsigned n = 2; n < LIMIT; n++) {
        if (composite[n])
            continue;
        count++;
        sum += n;
        for (unsigned multiple = n * n; multiple < LIMIT; multiple += n)
            composite[multiple] = 1;
    }
    out(count);
    out(sum);
    return 0;
}
