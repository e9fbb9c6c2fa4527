/* Adler-32 of a growing pattern: divisions by a constant. */
#include "input.h"
#include "multiscalar.h"

int main(void)
{
    unsigned low = 1, high = 0;
    for (unsigned n = 0; n < INPUT(600, 470); n++) {
        low = (low + (n * n >> 3 & 255)) % 65521;
        high = (high + low) % 65521;
    }
    out(high << 16 | low);
    return 0;
}
