/* Calls functions of assembly.S, which try what people write for the GNU assembler. */
#include "input.h"
#include "multiscalar.h"

unsigned arithmetic(int a, int b), compared(int a, int b), slots(unsigned *cells, int count), unaligned(char *bytes);
unsigned divided(int a, int b), tables(int n), data_words(int n), many(int n);
extern unsigned words[], end_of_words[];
static char bytes[24];
static unsigned cells[8];

int main(void)
{
    static const int samples[] = {0, 1, -1, INPUT(7, 3000), INPUT(-13, -1), 100000, -2147483647, 65535, -32768};
    for (int n = 0; n < 9; n++)
        for (int k = 0; k < 9; k++) {
            out(arithmetic(samples[n], samples[k]));
            out(compared(samples[n], samples[k]));
            if (samples[k])
                out(divided(samples[n], samples[k]));
        }
    out(slots(cells, 8));
    for (int n = 0; n < 8; n++)
        out(cells[n]);
    for (int n = 0; n < 24; n++)
        bytes[n] = n * 7 + 3;
    out(unaligned(bytes + 1));
    for (int n = 0; n < 24; n++)
        out((unsigned char)bytes[n]);
    for (int n = 0; n < 20; n++)
        out(tables(n));
    for (unsigned *at = words; at != end_of_words; at++)
        out(*at);
    for (int n = 0; n < 9; n++)
        out(data_words(n));
    out(many(5));
    return 0;
}
