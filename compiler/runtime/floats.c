/* Floating point in software: what GCC calls with -msoft-float. Arguments come as their bits, in the same registers. */

typedef unsigned single;
typedef unsigned long long twice;

static single single_wide_product(single a, single b, single *low)
{
    twice product = (twice)a * b;
    *low = product;
    return product >> 32;
}

#define word single
#define BITS 32
#define FRACTION 23
#define NAME(x) single_##x
#include "float_operations.h"
#undef word
#undef BITS
#undef FRACTION
#undef NAME

static twice double_wide_product(twice a, twice b, twice *low)
{
    unsigned a1 = a >> 32, a0 = a, b1 = b >> 32, b0 = b;
    twice least = (twice)a0 * b0, first = (twice)a1 * b0, second = (twice)a0 * b1;
    twice middle = (least >> 32) + (unsigned)first + (unsigned)second;
    *low = middle << 32 | (unsigned)least;
    return (twice)a1 * b1 + (first >> 32) + (second >> 32) + (middle >> 32);
}

#define word twice
#define BITS 64
#define FRACTION 52
#define NAME(x) double_##x
#include "float_operations.h"
#undef word

single __addsf3(single a, single b) { return single_sum(a, b); }
single __subsf3(single a, single b) { return single_sum(a, b ^ 1u << 31); }
single __mulsf3(single a, single b) { return single_product(a, b); }
single __divsf3(single a, single b) { return single_quotient(a, b); }
single __negsf2(single a) { return a ^ 1u << 31; }
int __eqsf2(single a, single b) { return single_compared(a, b, 1); }
int __nesf2(single a, single b) { return single_compared(a, b, 1); }
int __ltsf2(single a, single b) { return single_compared(a, b, 1); }
int __lesf2(single a, single b) { return single_compared(a, b, 1); }
int __gtsf2(single a, single b) { return single_compared(a, b, -1); }
int __gesf2(single a, single b) { return single_compared(a, b, -1); }
int __unordsf2(single a, single b) { return single_is_nan(a) || single_is_nan(b); }

twice __adddf3(twice a, twice b) { return double_sum(a, b); }
twice __subdf3(twice a, twice b) { return double_sum(a, b ^ 1ull << 63); }
twice __muldf3(twice a, twice b) { return double_product(a, b); }
twice __divdf3(twice a, twice b) { return double_quotient(a, b); }
twice __negdf2(twice a) { return a ^ 1ull << 63; }
int __eqdf2(twice a, twice b) { return double_compared(a, b, 1); }
int __nedf2(twice a, twice b) { return double_compared(a, b, 1); }
int __ltdf2(twice a, twice b) { return double_compared(a, b, 1); }
int __ledf2(twice a, twice b) { return double_compared(a, b, 1); }
int __gtdf2(twice a, twice b) { return double_compared(a, b, -1); }
int __gedf2(twice a, twice b) { return double_compared(a, b, -1); }
int __unorddf2(twice a, twice b) { return double_is_nan(a) || double_is_nan(b); }

static twice magnitude(long long value) { return value < 0 ? -(twice)value : (twice)value; }

single __floatsisf(int value) { return single_of_integer(value < 0 ? 1u << 31 : 0, magnitude(value)); }
single __floatunsisf(unsigned value) { return single_of_integer(0, value); }
single __floatdisf(long long value) { return single_of_integer(value < 0 ? 1u << 31 : 0, magnitude(value)); }
single __floatundisf(twice value) { return single_of_integer(0, value); }
twice __floatsidf(int value) { return double_of_integer(value < 0 ? 1ull << 63 : 0, magnitude(value)); }
twice __floatunsidf(unsigned value) { return double_of_integer(0, value); }
twice __floatdidf(long long value) { return double_of_integer(value < 0 ? 1ull << 63 : 0, magnitude(value)); }
twice __floatundidf(twice value) { return double_of_integer(0, value); }

/* A number that does not fit has no meaning in C. */
int __fixsfsi(single a) { return single_whole_with_sign(a); }
unsigned __fixunssfsi(single a) { return single_whole_with_sign(a); }
long long __fixsfdi(single a) { return single_whole_with_sign(a); }
twice __fixunssfdi(single a) { return single_whole_with_sign(a); }
int __fixdfsi(twice a) { return double_whole_with_sign(a); }
unsigned __fixunsdfsi(twice a) { return double_whole_with_sign(a); }
long long __fixdfdi(twice a) { return double_whole_with_sign(a); }
twice __fixunsdfdi(twice a) { return double_whole_with_sign(a); }

twice __extendsfdf2(single a)
{
    twice sign = (twice)(a >> 31) << 63;
    single fraction;
    a &= ~(1u << 31);
    if (a >= 0x7F800000)
        return sign | 0x7FFull << 52 | (a > 0x7F800000 ? 1ull << 51 : 0);
    if (!a)
        return sign;
    int exponent = single_taken(a, &fraction);
    return sign | ((twice)(exponent + 1023 - 127) << 52) + ((twice)(fraction - (1u << 23)) << 29);
}

single __truncdfsf2(twice a)
{
    single sign = (single)(a >> 32) & 1u << 31;
    twice fraction;
    a &= ~(1ull << 63);
    if (a >= 0x7FFull << 52)
        return sign | 0x7F800000 | (a > 0x7FFull << 52 ? 1u << 22 : 0);
    if (!a)
        return sign;
    int exponent = double_taken(a, &fraction);
    return single_rounded(sign, exponent - 1023 + 127, double_shifted(fraction, 26));
}
