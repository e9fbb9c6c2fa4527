/* Compares the run-time routines with the host's own arithmetic, on random operands. try_routines.py builds it, with
 * each routine named own_.. in place of its own name. It prints how many comparisons differ. */
#include <math.h>
#include <stdio.h>
#include <stdlib.h>
#include <string.h>

/* Where a pointer is wider than a word these cannot be tried. */
#define memcpy own_memcpy
#define memmove own_memmove
#define memset own_memset
#define memcmp own_memcmp
#define strlen own_strlen
#define strcmp own_strcmp
#include "runtime/integers.c"
#undef memcpy
#undef memmove
#undef memset
#undef memcmp
#undef strlen
#undef strcmp
#define twice twice_of_floats
#define magnitude magnitude_of_floats
#include "runtime/floats.c"
#undef twice
#undef magnitude

static unsigned long long differing, compared;

#define SAME(left, right)                                                          \
    do {                                                                           \
        compared++;                                                                \
        if (!(left == right) && differing++ < 20)                                  \
            printf("%s, %s: %x %x %llx %llx %d\n", #left, #right, a, b, A, B, by); \
    } while (0)

static unsigned random_word(void)
{
    return (unsigned)rand() << 17 ^ (unsigned)rand() << 3 ^ rand();
}

static twice random_twice(void)
{
    return ((twice)random_word() << 32 | random_word()) >> (rand() % 3 ? 0 : rand() % 64);
}

static float single_of(unsigned bits)
{
    float value;
    memcpy(&value, &bits, sizeof value);
    return value;
}

static double double_of(twice bits)
{
    double value;
    memcpy(&value, &bits, sizeof value);
    return value;
}

/* The bits of a number, with one pattern for all that are none. */
static unsigned bits_of_single(float value)
{
    unsigned bits;
    memcpy(&bits, &value, sizeof bits);
    return isnan(value) ? 0x7FC00000 : bits;
}

static twice bits_of_double(double value)
{
    twice bits;
    memcpy(&bits, &value, sizeof bits);
    return isnan(value) ? 0x7FF8ull << 48 : bits;
}

#define S(bits) bits_of_single(single_of(bits))
#define D(bits) bits_of_double(double_of(bits))

static void integers(unsigned a, unsigned b, twice A, twice B, int by)
{
    long long signed_a = A, signed_b = B;
    SAME(own_ashldi3(A, by), A << by);
    SAME(own_lshrdi3(A, by), A >> by);
    SAME((twice)own_ashrdi3(A, by), (twice)(signed_a >> by));
    SAME((twice)own_muldi3(A, B), A * B);
    SAME(own_cmpdi2(A, B), (signed_a > signed_b) - (signed_a < signed_b) + 1);
    SAME(own_ucmpdi2(A, B), (A > B) - (A < B) + 1);
    SAME(own_popcountsi2(a), __builtin_popcount(a));
    SAME(own_popcountdi2(A), __builtin_popcountll(A));
    SAME(own_paritydi2(A), __builtin_parityll(A));
    SAME(own_bswapsi2(a), __builtin_bswap32(a));
    SAME(own_bswapdi2(A), __builtin_bswap64(A));
    SAME(own_ffssi2(a), __builtin_ffs(a));
    SAME(own_ffsdi2(A), __builtin_ffsll(A));
    SAME(own_clrsbsi2(a), __builtin_clrsb(a));
    if (a)
        SAME(own_clzsi2(a) * 64 + own_ctzsi2(a), __builtin_clz(a) * 64 + __builtin_ctz(a));
    if (A)
        SAME(own_clzdi2(A) * 64 + own_ctzdi2(A), __builtin_clzll(A) * 64 + __builtin_ctzll(A));
    if (!B)
        return;
    SAME(own_udivdi3(A, B), A / B);
    SAME(own_umoddi3(A, B), A % B);
    if (signed_b != -1) {
        SAME(own_divdi3(A, B), signed_a / signed_b);
        SAME(own_moddi3(A, B), signed_a % signed_b);
    }
}

static void floats(unsigned a, unsigned b, twice A, twice B, int by)
{
    float x = single_of(a), y = single_of(b);
    double X = double_of(A), Y = double_of(B);
    SAME(S(own_addsf3(a, b)), bits_of_single(x + y));
    SAME(S(own_subsf3(a, b)), bits_of_single(x - y));
    SAME(S(own_mulsf3(a, b)), bits_of_single(x * y));
    SAME(S(own_divsf3(a, b)), bits_of_single(x / y));
    SAME(D(own_adddf3(A, B)), bits_of_double(X + Y));
    SAME(D(own_subdf3(A, B)), bits_of_double(X - Y));
    SAME(D(own_muldf3(A, B)), bits_of_double(X * Y));
    SAME(D(own_divdf3(A, B)), bits_of_double(X / Y));
    SAME((own_ltsf2(a, b) < 0), (x < y));
    SAME((own_lesf2(a, b) <= 0), (x <= y));
    SAME((own_gtsf2(a, b) > 0), (x > y));
    SAME((own_gesf2(a, b) >= 0), (x >= y));
    SAME((own_eqsf2(a, b) == 0), (x == y));
    SAME((own_ltdf2(A, B) < 0), (X < Y));
    SAME((own_ledf2(A, B) <= 0), (X <= Y));
    SAME((own_gtdf2(A, B) > 0), (X > Y));
    SAME((own_gedf2(A, B) >= 0), (X >= Y));
    SAME((own_nedf2(A, B) != 0), (X != Y));
    SAME(S(own_truncdfsf2(A)), bits_of_single((float)X));
    SAME(D(own_extendsfdf2(a)), bits_of_double(x));
    SAME(own_floatsisf(a), bits_of_single((float)(int)a));
    SAME(own_floatunsisf(a), bits_of_single((float)a));
    SAME(own_floatdisf(A), bits_of_single((float)(long long)A));
    SAME(own_floatundisf(A), bits_of_single((float)A));
    SAME(own_floatsidf(a), bits_of_double((int)a));
    SAME(own_floatdidf(A), bits_of_double((double)(long long)A));
    SAME(own_floatundidf(A), bits_of_double((double)A));
    if (fabs(x) < 2147483000)
        SAME(own_fixsfsi(a), (int)x);
    if (fabs(X) < 2147483647.0)
        SAME(own_fixdfsi(A), (int)X);
    if (fabs(X) < 9e18)
        SAME(own_fixdfdi(A), (long long)X);
    if (X >= 0 && X < 4294967295.0)
        SAME(own_fixunsdfsi(A), (unsigned)X);
    if (X >= 0 && X < 1.8e19)
        SAME(own_fixunsdfdi(A), (twice)X);
}

int main(int count, char **words)
{
    int rounds = count > 1 ? atoi(words[1]) : 100000;
    for (int n = 0; n < rounds; n++) {
        unsigned a = random_word(), b = random_word();
        twice A = random_twice(), B = random_twice();
        /* Numbers of about one size, subnormal ones, and ones that fit integers. */
        if (n & 1) {
            b = (b & 0x807FFFFF) | ((a >> 23) + rand() % 60 - 30 & 255) << 23;
            B = (B & 0x800FFFFFFFFFFFFFull) | ((A >> 52) + rand() % 120 - 60 & 2047) << 52;
        }
        if (n % 7 == 0) {
            a &= 0x807FFFFF;
            A &= 0x800FFFFFFFFFFFFFull;
        }
        if (n % 5 == 0) {
            a = (a & 0x807FFFFF) | (127 + rand() % 80 - 40) << 23;
            A = (A & 0x800FFFFFFFFFFFFFull) | (twice)(1023 + rand() % 160 - 80) << 52;
        }
        integers(a, b, A, B, rand() & 63);
        floats(a, b, A, B, rand() & 63);
    }
    printf("%llu of %llu comparisons differ\n", differing, compared);
    return differing != 0;
}
