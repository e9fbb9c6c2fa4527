/* Inflates two short streams (RFC 1951), one with fixed and one with dynamic codes, and prints a hash of each. */
#include "input.h"
#include "multiscalar.h"

#define LONGEST 15

static const unsigned char fixed_stream[] = {
#ifndef SECOND
    43, 73, 44, 206, 46, 86, 40, 42, 205, 83, 72, 204, 72, 77, 76, 209, 81, 40, 1, 11, 148, 39, 102, 150,
    192, 216, 69, 169, 37, 153, 69, 169, 214, 80, 94, 73, 70, 98, 137, 66, 81, 34, 84, 189, 66, 126, 154, 66,
    162, 66, 121, 81, 126, 94, 58, 88, 94, 33, 177, 40, 85, 161, 184, 176, 52, 177, 56, 35, 53, 69, 15, 102,
    0, 204, 116, 133, 196, 244, 196, 76, 32, 59, 15, 131, 165, 7, 0,
#else
    43, 202, 47, 205, 75, 81, 72, 4, 226, 34, 48, 171, 36, 35, 85, 161, 40, 51, 47, 93, 33, 63, 77, 161,
    52, 47, 179, 164, 88, 7, 42, 129, 80, 146, 89, 162, 144, 158, 159, 90, 12, 0,
#endif
};
static const unsigned char dynamic_stream[] = {
#ifndef SECOND
    101, 143, 193, 13, 197, 32, 12, 67, 87, 241, 0, 21, 11, 116, 26, 75, 164, 128, 190, 4, 106, 18, 196, 250,
    69, 253, 229, 210, 158, 242, 226, 56, 86, 18, 106, 97, 34, 98, 37, 62, 68, 201, 147, 187, 194, 126, 70, 71,
    136, 146, 141, 253, 52, 136, 18, 183, 148, 106, 211, 1, 226, 104, 203, 77, 133, 51, 251, 179, 178, 139, 22, 151,
    21, 176, 121, 225, 88, 252, 74, 119, 206, 2, 237, 21, 204, 194, 184, 225, 47, 12, 22, 95, 172, 226, 69, 101,
    127, 58, 207, 51, 69, 249, 248, 209, 142, 121, 198, 208, 86, 211, 61, 7, 85, 96, 103, 167, 101, 137, 1, 175,
    116, 204, 247, 202, 228, 250, 161, 112, 1,
#else
    221, 143, 49, 10, 196, 48, 12, 4, 191, 178, 15, 48, 249, 192, 85, 87, 248, 33, 74, 206, 196, 33, 32, 131,
    37, 115, 248, 247, 145, 229, 46, 93, 218, 84, 210, 206, 238, 130, 20, 105, 203, 80, 146, 19, 153, 4, 196, 72,
    172, 181, 7, 219, 126, 72, 195, 115, 61, 77, 207, 45, 136, 207, 43, 95, 52, 62, 20, 154, 73, 157, 115, 225,
    132, 63, 29, 42, 179, 70, 55, 127, 216, 181, 177, 124, 32, 197, 104, 234, 216, 139, 193, 48, 99, 107, 159, 115,
    52, 253, 14, 3, 99, 6, 212, 210, 140, 153, 244, 101, 137, 111, 126, 238, 2,
#endif
};
static const unsigned short length_base[29] = {3, 4, 5, 6, 7, 8, 9, 10, 11, 13, 15, 17, 19, 23, 27, 31, 35, 43, 51, 59, 67, 83, 99, 115, 131, 163, 195, 227, 258};
static const unsigned char length_bits[29] = {0, 0, 0, 0, 0, 0, 0, 0, 1, 1, 1, 1, 2, 2, 2, 2, 3, 3, 3, 3, 4, 4, 4, 4, 5, 5, 5, 5, 0};
static const unsigned short distance_base[30] = {1, 2, 3, 4, 5, 7, 9, 13, 17, 25, 33, 49, 65, 97, 129, 193, 257, 385, 513, 769, 1025, 1537, 2049, 3073, 4097, 6145, 8193, 12289, 16385, 24577};
static const unsigned char distance_bits[30] = {0, 0, 0, 0, 1, 1, 2, 2, 3, 3, 4, 4, 5, 5, 6, 6, 7, 7, 8, 8, 9, 9, 10, 10, 11, 11, 12, 12, 13, 13};
static const unsigned char order[19] = {16, 17, 18, 0, 8, 7, 9, 6, 10, 5, 11, 4, 12, 3, 13, 2, 14, 1, 15};

struct code {
    unsigned short count[LONGEST + 1], symbol[288];
};

static const unsigned char *stream;
static unsigned held, held_bits;
static unsigned char made[1024];
static unsigned used;
static struct code literals, distances;

static unsigned bits(unsigned count)
{
    while (held_bits < count) {
        held |= (unsigned)*stream++ << held_bits;
        held_bits += 8;
    }
    unsigned value = held & ((1u << count) - 1);
    held >>= count;
    held_bits -= count;
    return value;
}

static void build(struct code *code, const unsigned char *lengths, int symbols)
{
    unsigned short begin[LONGEST + 1];
    for (int n = 0; n <= LONGEST; n++)
        code->count[n] = 0;
    for (int n = 0; n < symbols; n++)
        code->count[lengths[n]]++;
    begin[1] = 0;
    for (int n = 1; n < LONGEST; n++)
        begin[n + 1] = begin[n] + code->count[n];
    for (int n = 0; n < symbols; n++)
        if (lengths[n])
            code->symbol[begin[lengths[n]]++] = n;
    code->count[0] = 0;
}

static int decode(const struct code *code)
{
    int value = 0, first = 0, index = 0;
    for (int length = 1; length <= LONGEST; length++) {
        value |= bits(1);
        int count = code->count[length];
        if (value - count < first)
            return code->symbol[index + value - first];
        index += count;
        first = (first + count) << 1;
        value <<= 1;
    }
    return -1;
}

static void fixed_codes(void)
{
    unsigned char lengths[288];
    for (int n = 0; n < 288; n++)
        lengths[n] = n < 144 ? 8 : n < 256 ? 9 : n < 280 ? 7 : 8;
    build(&literals, lengths, 288);
    for (int n = 0; n < 30; n++)
        lengths[n] = 5;
    build(&distances, lengths, 30);
}

static void dynamic_codes(void)
{
    unsigned char lengths[320];
    int literal_count = bits(5) + 257, distance_count = bits(5) + 1, count = bits(4) + 4, at = 0;
    for (int n = 0; n < 19; n++)
        lengths[order[n]] = n < count ? bits(3) : 0;
    build(&literals, lengths, 19);
    while (at < literal_count + distance_count) {
        int symbol = decode(&literals), times = 1, value = symbol;
        if (symbol == 16) {
            value = lengths[at - 1];
            times = 3 + bits(2);
        } else if (symbol > 16) {
            value = 0;
            times = symbol == 17 ? 3 + bits(3) : 11 + bits(7);
        }
        while (times--)
            lengths[at++] = value;
    }
    build(&literals, lengths, literal_count);
    build(&distances, lengths + literal_count, distance_count);
}

static void inflate(const unsigned char *from)
{
    stream = from;
    held = held_bits = used = 0;
    unsigned is_last;
    do {
        is_last = bits(1);
        if (bits(2) == 1)
            fixed_codes();
        else
            dynamic_codes();
        for (int symbol; (symbol = decode(&literals)) != 256;) {
            if (symbol < 256) {
                made[used++] = symbol;
                continue;
            }
            int length = length_base[symbol - 257] + bits(length_bits[symbol - 257]);
            int far = decode(&distances);
            unsigned distance = distance_base[far] + bits(distance_bits[far]);
            for (; length; length--, used++)
                made[used] = made[used - distance];
        }
    } while (!is_last);
    unsigned hash = 2166136261u;
    for (unsigned n = 0; n < used; n++)
        hash = (hash ^ made[n]) * 16777619u;
    out(used);
    out(hash);
}

int main(void)
{
    inflate(fixed_stream);
    inflate(dynamic_stream);
    return 0;
}
