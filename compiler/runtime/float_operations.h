/* Arithmetic of IEEE 754, rounded to nearest, on the bits of a number. The file that includes it defines:
 *   word      an unsigned type for the bits
 *   BITS      how many there are
 *   FRACTION  how many of them are the fraction
 *   NAME(x)   the name of an operation
 * Between, a fraction has its leading one at bit FRACTION + 3; the lowest of its three further bits is sticky.
 */

#define SIGN ((word)1 << (BITS - 1))
#define HIDDEN ((word)1 << FRACTION)
#define EXPONENT ((1 << (BITS - 1 - FRACTION)) - 1)
#define BIAS (EXPONENT >> 1)
#define INFINITE ((word)EXPONENT << FRACTION)
#define NOT_A_NUMBER (INFINITE | (HIDDEN >> 1))

static word NAME(shifted)(word fraction, int by)
{
    if (by >= BITS)
        return fraction != 0;
    return by ? fraction >> by | (fraction << (BITS - by) != 0) : fraction;
}

static word NAME(rounded)(word sign, int exponent, word fraction)
{
    if (exponent >= EXPONENT)
        return sign | INFINITE;
    if (exponent <= 0) {
        fraction = NAME(shifted)(fraction, 1 - exponent);
        exponent = 0;
    } else
        fraction -= HIDDEN << 3;
    word low = fraction & 7;
    fraction = ((word)exponent << FRACTION) + (fraction >> 3);
    return sign | (fraction + (low > 4 || (low == 4 && (fraction & 1))));
}

static int NAME(is_nan)(word value)
{
    return (value & ~SIGN) > INFINITE;
}

/* The exponent, and the fraction with its leading one; a subnormal number is made normal. Not of zero. */
static int NAME(taken)(word value, word *fraction)
{
    int exponent = (int)(value >> FRACTION) & EXPONENT;
    *fraction = value & (HIDDEN - 1);
    if (exponent) {
        *fraction |= HIDDEN;
        return exponent;
    }
    for (exponent = 1; !(*fraction & HIDDEN); exponent--)
        *fraction <<= 1;
    return exponent;
}

static word NAME(sum)(word a, word b)
{
    if ((a & ~SIGN) < (b & ~SIGN)) {
        word kept = a;
        a = b;
        b = kept;
    }
    if ((a & ~SIGN) >= INFINITE) {
        if (NAME(is_nan)(a))
            return NOT_A_NUMBER;
        return (b & ~SIGN) == INFINITE && a != b ? NOT_A_NUMBER : a;
    }
    if (!(b & ~SIGN))
        return a & ~SIGN ? a : a & b;
    word large, small;
    int exponent = NAME(taken)(a, &large), below = NAME(taken)(b, &small);
    large <<= 3;
    small = NAME(shifted)(small << 3, exponent - below);
    if ((a ^ b) & SIGN) {
        large -= small;
        if (!large)
            return 0;
        for (; !(large & HIDDEN << 3); exponent--)
            large <<= 1;
    } else {
        large += small;
        if (large & HIDDEN << 4) {
            large = NAME(shifted)(large, 1);
            exponent++;
        }
    }
    return NAME(rounded)(a & SIGN, exponent, large);
}

static word NAME(product)(word a, word b)
{
    word sign = (a ^ b) & SIGN;
    a &= ~SIGN;
    b &= ~SIGN;
    if (NAME(is_nan)(a) || NAME(is_nan)(b))
        return NOT_A_NUMBER;
    if (a == INFINITE || b == INFINITE)
        return a && b ? sign | INFINITE : NOT_A_NUMBER;
    if (!a || !b)
        return sign;
    word left, right, low;
    int exponent = NAME(taken)(a, &left) + NAME(taken)(b, &right) - BIAS;
    word high = NAME(wide_product)(left << (BITS - 1 - FRACTION), right << (BITS - 1 - FRACTION), &low);
    high = NAME(shifted)(high, BITS - 5 - FRACTION) | (low != 0);
    if (high & HIDDEN << 4) {
        high = NAME(shifted)(high, 1);
        exponent++;
    }
    return NAME(rounded)(sign, exponent, high);
}

static word NAME(quotient)(word a, word b)
{
    word sign = (a ^ b) & SIGN;
    a &= ~SIGN;
    b &= ~SIGN;
    if (NAME(is_nan)(a) || NAME(is_nan)(b))
        return NOT_A_NUMBER;
    if (a == INFINITE)
        return b == INFINITE ? NOT_A_NUMBER : sign | INFINITE;
    if (b == INFINITE)
        return sign;
    if (!b)
        return a ? sign | INFINITE : NOT_A_NUMBER;
    if (!a)
        return sign;
    word rest, divisor, made = 0;
    int exponent = NAME(taken)(a, &rest);
    exponent -= NAME(taken)(b, &divisor) - BIAS;
    if (rest < divisor) {
        rest <<= 1;
        exponent--;
    }
    for (int bit = 0; bit < FRACTION + 4; bit++) {
        made <<= 1;
        if (rest >= divisor) {
            rest -= divisor;
            made |= 1;
        }
        rest <<= 1;
    }
    return NAME(rounded)(sign, exponent, made | (rest != 0));
}

/* -1, 0 or 1; `unordered` if one of them is not a number. */
static int NAME(compared)(word a, word b, int unordered)
{
    if (NAME(is_nan)(a) || NAME(is_nan)(b))
        return unordered;
    if (!((a | b) & ~SIGN) || a == b)
        return 0;
    if ((a ^ b) & SIGN)
        return a & SIGN ? -1 : 1;
    return (a < b) != !!(a & SIGN) ? -1 : 1;
}

static word NAME(of_integer)(word sign, unsigned long long value)
{
    int exponent = BIAS + FRACTION + 3;
    if (!value)
        return 0;
    for (; value >> (FRACTION + 4); exponent++)
        value = value >> 1 | (value & 1);
    for (; !(value >> (FRACTION + 3)); exponent--)
        value <<= 1;
    return NAME(rounded)(sign, exponent, value);
}

static unsigned long long NAME(whole)(word value)
{
    int exponent = (int)(value >> FRACTION) & EXPONENT;
    unsigned long long fraction = (value & (HIDDEN - 1)) | HIDDEN;
    exponent -= BIAS + FRACTION;
    if (exponent < -FRACTION)
        return 0;
    if (exponent < 0)
        return fraction >> -exponent;
    return exponent > 63 - FRACTION ? 0 : fraction << exponent;
}

static unsigned long long NAME(whole_with_sign)(word value)
{
    unsigned long long whole = NAME(whole)(value);
    return value & SIGN ? -whole : whole;
}
