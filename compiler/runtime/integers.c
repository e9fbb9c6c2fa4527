/* What GCC calls by itself: memory, words of 64 bits, counts of bits. Written so that none calls itself. */

typedef unsigned word;
typedef unsigned long long twice;

typedef union {
    twice all;
    struct { word low, high; } half;
} parts;

void *memcpy(void *to, const void *from, word count)
{
    unsigned char *into = to;
    const unsigned char *of = from;
    if ((((word)into | (word)of) & 3) == 0)
        for (; count >= 4; count -= 4, into += 4, of += 4)
            *(word *)into = *(const word *)of;
    while (count--)
        *into++ = *of++;
    return to;
}

void *memmove(void *to, const void *from, word count)
{
    unsigned char *into = to;
    const unsigned char *of = from;
    if ((word)into - (word)of >= count)
        return memcpy(to, from, count);
    while (count--)
        into[count] = of[count];
    return to;
}

void *memset(void *to, int value, word count)
{
    unsigned char *into = to;
    word byte = value & 255, four = byte | byte << 8 | byte << 16 | byte << 24;
    for (; count && ((word)into & 3); count--)
        *into++ = byte;
    for (; count >= 4; count -= 4, into += 4)
        *(word *)into = four;
    while (count--)
        *into++ = byte;
    return to;
}

int memcmp(const void *left, const void *right, word count)
{
    const unsigned char *a = left, *b = right;
    for (; count; count--, a++, b++)
        if (*a != *b)
            return *a - *b;
    return 0;
}

word strlen(const char *text)
{
    word count = 0;
    while (text[count])
        count++;
    return count;
}

int strcmp(const char *left, const char *right)
{
    const unsigned char *a = (const unsigned char *)left, *b = (const unsigned char *)right;
    for (; *a && *a == *b; a++, b++)
        ;
    return *a - *b;
}

/* Shifts */

twice __ashldi3(twice value, int by)
{
    parts of = {value}, made;
    if (by & 32) {
        made.half.low = 0;
        made.half.high = of.half.low << (by & 31);
    } else if (by & 31) {
        made.half.low = of.half.low << by;
        made.half.high = of.half.high << by | of.half.low >> (32 - by);
    } else
        return value;
    return made.all;
}

twice __lshrdi3(twice value, int by)
{
    parts of = {value}, made;
    if (by & 32) {
        made.half.high = 0;
        made.half.low = of.half.high >> (by & 31);
    } else if (by & 31) {
        made.half.high = of.half.high >> by;
        made.half.low = of.half.low >> by | of.half.high << (32 - by);
    } else
        return value;
    return made.all;
}

long long __ashrdi3(long long value, int by)
{
    parts of = {value}, made;
    if (by & 32) {
        made.half.high = (int)of.half.high >> 31;
        made.half.low = (int)of.half.high >> (by & 31);
    } else if (by & 31) {
        made.half.high = (int)of.half.high >> by;
        made.half.low = of.half.low >> by | of.half.high << (32 - by);
    } else
        return value;
    return made.all;
}

/* Products, quotients, comparisons */

long long __muldi3(long long left, long long right)
{
    parts a = {left}, b = {right}, made;
    made.all = (twice)a.half.low * b.half.low;
    made.half.high += a.half.low * b.half.high + a.half.high * b.half.low;
    return made.all;
}

static twice divided(twice dividend, twice divisor, twice *remainder)
{
    parts n = {dividend}, d = {divisor};
    if (n.half.high == 0 && d.half.high == 0) {
        *remainder = n.half.low % d.half.low;
        return n.half.low / d.half.low;
    }
    if (divisor == 0)
        __builtin_trap();
    int steps = 0;
    while (!((twice)divisor >> 63) && divisor <= dividend >> 1) {
        divisor <<= 1;
        steps++;
    }
    twice quotient = 0;
    for (; steps >= 0; steps--) {
        quotient <<= 1;
        if (dividend >= divisor) {
            dividend -= divisor;
            quotient |= 1;
        }
        divisor >>= 1;
    }
    *remainder = dividend;
    return quotient;
}

twice __udivdi3(twice dividend, twice divisor)
{
    twice remainder;
    return divided(dividend, divisor, &remainder);
}

twice __umoddi3(twice dividend, twice divisor)
{
    twice remainder;
    divided(dividend, divisor, &remainder);
    return remainder;
}

twice __udivmoddi4(twice dividend, twice divisor, twice *rest)
{
    twice remainder, quotient = divided(dividend, divisor, &remainder);
    if (rest)
        *rest = remainder;
    return quotient;
}

static twice magnitude(long long value)
{
    return value < 0 ? -(twice)value : (twice)value;
}

long long __divdi3(long long dividend, long long divisor)
{
    twice remainder, quotient = divided(magnitude(dividend), magnitude(divisor), &remainder);
    return (dividend < 0) != (divisor < 0) ? -quotient : quotient;
}

long long __moddi3(long long dividend, long long divisor)
{
    twice remainder;
    divided(magnitude(dividend), magnitude(divisor), &remainder);
    return dividend < 0 ? -remainder : remainder;
}

long long __divmoddi4(long long dividend, long long divisor, long long *rest)
{
    twice remainder, quotient = divided(magnitude(dividend), magnitude(divisor), &remainder);
    *rest = dividend < 0 ? -remainder : remainder;
    return (dividend < 0) != (divisor < 0) ? -quotient : quotient;
}

int __cmpdi2(long long left, long long right)
{
    return left < right ? 0 : left > right ? 2 : 1;
}

int __ucmpdi2(twice left, twice right)
{
    return left < right ? 0 : left > right ? 2 : 1;
}

long long __negdi2(long long value)
{
    return -(twice)value;
}

/* Bits */

int __clzsi2(word value)
{
    int count = 0;
    for (int width = 16; width; width >>= 1)
        if (value >> (32 - width) == 0) {
            count += width;
            value <<= width;
        }
    return count + (value == 0);
}

int __clzdi2(twice value)
{
    parts of = {value};
    return of.half.high ? __clzsi2(of.half.high) : 32 + __clzsi2(of.half.low);
}

int __ctzsi2(word value)
{
    return 31 - __clzsi2(value & -value);
}

int __ctzdi2(twice value)
{
    parts of = {value};
    return of.half.low ? __ctzsi2(of.half.low) : 32 + __ctzsi2(of.half.high);
}

int __ffssi2(int value)
{
    return value ? __ctzsi2(value) + 1 : 0;
}

int __ffsdi2(long long value)
{
    return value ? __ctzdi2(value) + 1 : 0;
}

int __popcountsi2(word value)
{
    value -= value >> 1 & 0x55555555;
    value = (value & 0x33333333) + (value >> 2 & 0x33333333);
    value = value + (value >> 4) & 0x0f0f0f0f;
    return value * 0x01010101 >> 24;
}

int __popcountdi2(twice value)
{
    parts of = {value};
    return __popcountsi2(of.half.low) + __popcountsi2(of.half.high);
}

int __paritysi2(word value)
{
    return __popcountsi2(value) & 1;
}

int __paritydi2(twice value)
{
    return __popcountdi2(value) & 1;
}

word __bswapsi2(word value)
{
    return value << 24 | (value & 0xff00) << 8 | (value >> 8 & 0xff00) | value >> 24;
}

twice __bswapdi2(twice value)
{
    parts of = {value}, made;
    made.half.low = __bswapsi2(of.half.high);
    made.half.high = __bswapsi2(of.half.low);
    return made.all;
}

int __clrsbsi2(int value)
{
    return value == 0 || value == -1 ? 31 : __clzsi2(value < 0 ? ~value : value) - 1;
}
