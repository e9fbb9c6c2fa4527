/* Base64 of a text, and back. */
#include "input.h"
#include "multiscalar.h"

static const char digits[] = "ABCDEFGHIJKLMNOPQRSTUVWXYZabcdefghijklmnopqrstuvwxyz0123456789+/";
static const char text[] = INPUT("Multiscalar processors run tasks side by side.",
    "Another text, which has just as many letters..");
static char encoded[80], decoded[64];

static int encode(const char *from, int count, char *into)
{
    int made = 0;
    for (int n = 0; n < count; n += 3) {
        unsigned group = (unsigned char)from[n] << 16;
        if (n + 1 < count)
            group |= (unsigned char)from[n + 1] << 8;
        if (n + 2 < count)
            group |= (unsigned char)from[n + 2];
        into[made++] = digits[group >> 18];
        into[made++] = digits[group >> 12 & 63];
        into[made++] = n + 1 < count ? digits[group >> 6 & 63] : '=';
        into[made++] = n + 2 < count ? digits[group & 63] : '=';
    }
    return made;
}

static int value_of(char letter)
{
    if (letter >= 'A' && letter <= 'Z')
        return letter - 'A';
    if (letter >= 'a' && letter <= 'z')
        return letter - 'a' + 26;
    if (letter >= '0' && letter <= '9')
        return letter - '0' + 52;
    return letter == '+' ? 62 : letter == '/' ? 63 : -1;
}

int main(void)
{
    int count = sizeof text - 1, made = encode(text, count, encoded), back = 0;
    unsigned hash = 5381, bits = 0, held = 0;
    for (int n = 0; n < made; n++) {
        hash = hash * 33 ^ encoded[n];
        int value = value_of(encoded[n]);
        if (value < 0)
            continue;
        held = held << 6 | value;
        bits += 6;
        if (bits >= 8) {
            bits -= 8;
            decoded[back++] = held >> bits;
        }
    }
    out(made);
    out(hash);
    int same = back == count;
    for (int n = 0; n < count; n++)
        same &= decoded[n] == text[n];
    out(same);
    return 0;
}
