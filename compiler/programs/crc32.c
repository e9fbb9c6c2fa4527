/* CRC-32 of a text, bit by bit and with a table; both are printed. */
#include "input.h"
#include "multiscalar.h"

static const char text[] = INPUT("The quick brown fox jumps over the lazy dog. 0123456789 and so on, until the text is long enough.",
    "Pack my box with five dozen liquor jugs. 9876543210, and then some more of it, which is not the same text.");
static unsigned table[256];

static unsigned of_byte(unsigned value)
{
    for (int bit = 0; bit < 8; bit++)
        value = value & 1 ? value >> 1 ^ 0xEDB88320 : value >> 1;
    return value;
}

int main(void)
{
    unsigned slow = 0xFFFFFFFF, quick = 0xFFFFFFFF;
    for (unsigned n = 0; n < 256; n++)
        table[n] = of_byte(n);
    for (const char *at = text; *at; at++) {
        slow = of_byte((slow ^ (unsigned char)*at) & 255) ^ slow >> 8;
        quick = table[(quick ^ (unsigned char)*at) & 255] ^ quick >> 8;
    }
    out(~slow);
    out(~quick);
    return 0;
}
