/* MD5 of two short texts; the table of sines is read-only data. */
#include "input.h"
#include "multiscalar.h"

static const unsigned sines[64] = {
    0xd76aa478, 0xe8c7b756, 0x242070db, 0xc1bdceee, 0xf57c0faf, 0x4787c62a, 0xa8304613, 0xfd469501, 0x698098d8, 0x8b44f7af, 0xffff5bb1, 0x895cd7be, 0x6b901122, 0xfd987193, 0xa679438e, 0x49b40821,
    0xf61e2562, 0xc040b340, 0x265e5a51, 0xe9b6c7aa, 0xd62f105d, 0x02441453, 0xd8a1e681, 0xe7d3fbc8, 0x21e1cde6, 0xc33707d6, 0xf4d50d87, 0x455a14ed, 0xa9e3e905, 0xfcefa3f8, 0x676f02d9, 0x8d2a4c8a,
    0xfffa3942, 0x8771f681, 0x6d9d6122, 0xfde5380c, 0xa4beea44, 0x4bdecfa9, 0xf6bb4b60, 0xbebfbc70, 0x289b7ec6, 0xeaa127fa, 0xd4ef3085, 0x04881d05, 0xd9d4d039, 0xe6db99e5, 0x1fa27cf8, 0xc4ac5665,
    0xf4292244, 0x432aff97, 0xab9423a7, 0xfc93a039, 0x655b59c3, 0x8f0ccc92, 0xffeff47d, 0x85845dd1, 0x6fa87e4f, 0xfe2ce6e0, 0xa3014314, 0x4e0811a1, 0xf7537e82, 0xbd3af235, 0x2ad7d2bb, 0xeb86d391,
};
static const unsigned char turns[4][4] = {{7, 12, 17, 22}, {5, 9, 14, 20}, {4, 11, 16, 23}, {6, 10, 15, 21}};

static void digest(const char *text)
{
    union { unsigned char bytes[64]; unsigned words[16]; } block = {{0}};
    unsigned a = 0x67452301, b = 0xefcdab89, c = 0x98badcfe, d = 0x10325476, length = 0;
    for (; text[length]; length++)
        block.bytes[length] = text[length];
    block.bytes[length] = 0x80;
    block.words[14] = length * 8;
    unsigned a0 = a, b0 = b, c0 = c, d0 = d;
    for (int n = 0; n < 64; n++) {
        unsigned mixed, from;
        switch (n >> 4) {
        case 0: mixed = (b & c) | (~b & d); from = n; break;
        case 1: mixed = (d & b) | (~d & c); from = 5 * n + 1; break;
        case 2: mixed = b ^ c ^ d; from = 3 * n + 5; break;
        default: mixed = c ^ (b | ~d); from = 7 * n; break;
        }
        mixed += a + sines[n] + block.words[from & 15];
        int by = turns[n >> 4][n & 3];
        a = d;
        d = c;
        c = b;
        b += mixed << by | mixed >> (32 - by);
    }
    out(a0 + a);
    out(b0 + b);
    out(c0 + c);
    out(d0 + d);
}

int main(void)
{
    digest(INPUT("", "abc"));
    digest(INPUT("message digest", "abcdefghijklmnopqrstuvwxyz"));
    return 0;
}
