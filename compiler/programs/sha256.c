/* SHA-256 of "abc" and of a text of two blocks. */
#include "input.h"
#include "multiscalar.h"

static const unsigned constants[64] = {
    0x428a2f98, 0x71374491, 0xb5c0fbcf, 0xe9b5dba5, 0x3956c25b, 0x59f111f1, 0x923f82a4, 0xab1c5ed5,
    0xd807aa98, 0x12835b01, 0x243185be, 0x550c7dc3, 0x72be5d74, 0x80deb1fe, 0x9bdc06a7, 0xc19bf174,
    0xe49b69c1, 0xefbe4786, 0x0fc19dc6, 0x240ca1cc, 0x2de92c6f, 0x4a7484aa, 0x5cb0a9dc, 0x76f988da,
    0x983e5152, 0xa831c66d, 0xb00327c8, 0xbf597fc7, 0xc6e00bf3, 0xd5a79147, 0x06ca6351, 0x14292967,
    0x27b70a85, 0x2e1b2138, 0x4d2c6dfc, 0x53380d13, 0x650a7354, 0x766a0abb, 0x81c2c92e, 0x92722c85,
    0xa2bfe8a1, 0xa81a664b, 0xc24b8b70, 0xc76c51a3, 0xd192e819, 0xd6990624, 0xf40e3585, 0x106aa070,
    0x19a4c116, 0x1e376c08, 0x2748774c, 0x34b0bcb5, 0x391c0cb3, 0x4ed8aa4a, 0x5b9cca4f, 0x682e6ff3,
    0x748f82ee, 0x78a5636f, 0x84c87814, 0x8cc70208, 0x90befffa, 0xa4506ceb, 0xbef9a3f7, 0xc67178f2,
};

static unsigned turned(unsigned value, int by)
{
    return value >> by | value << (32 - by);
}

static void add_block(unsigned *state, const unsigned char *block)
{
    unsigned schedule[64], now[8];
    for (int n = 0; n < 16; n++)
        schedule[n] = (unsigned)block[4 * n] << 24 | block[4 * n + 1] << 16 | block[4 * n + 2] << 8 | block[4 * n + 3];
    for (int n = 16; n < 64; n++) {
        unsigned early = schedule[n - 15], late = schedule[n - 2];
        schedule[n] = schedule[n - 16] + (turned(early, 7) ^ turned(early, 18) ^ early >> 3) + schedule[n - 7] + (turned(late, 17) ^ turned(late, 19) ^ late >> 10);
    }
    for (int n = 0; n < 8; n++)
        now[n] = state[n];
    for (int n = 0; n < 64; n++) {
        unsigned e = now[4], a = now[0];
        unsigned first = now[7] + (turned(e, 6) ^ turned(e, 11) ^ turned(e, 25)) + ((e & now[5]) ^ (~e & now[6])) + constants[n] + schedule[n];
        unsigned second = (turned(a, 2) ^ turned(a, 13) ^ turned(a, 22)) + ((a & now[1]) ^ (a & now[2]) ^ (now[1] & now[2]));
        for (int k = 7; k > 0; k--)
            now[k] = now[k - 1];
        now[4] += first;
        now[0] = first + second;
    }
    for (int n = 0; n < 8; n++)
        state[n] += now[n];
}

static void digest(const char *text)
{
    unsigned state[8] = {0x6a09e667, 0xbb67ae85, 0x3c6ef372, 0xa54ff53a, 0x510e527f, 0x9b05688c, 0x1f83d9ab, 0x5be0cd19};
    unsigned char block[64];
    unsigned length = 0, used = 0;
    for (; text[length]; length++) {
        block[used++] = text[length];
        if (used == 64) {
            add_block(state, block);
            used = 0;
        }
    }
    block[used++] = 0x80;
    if (used > 56) {
        while (used < 64)
            block[used++] = 0;
        add_block(state, block);
        used = 0;
    }
    while (used < 60)
        block[used++] = 0;
    for (int shift = 24; shift >= 0; shift -= 8)
        block[used++] = length * 8 >> shift;
    add_block(state, block);
    for (int n = 0; n < 8; n++)
        out(state[n]);
}

int main(void)
{
    digest(INPUT("abc", "multiscalar"));
    digest(INPUT("abcdbcdecdefdefgefghfghighijhijkijkljklmklmnlmnomnopnopq", "a second text, which is also long enough for a second block"));
    return 0;
}
