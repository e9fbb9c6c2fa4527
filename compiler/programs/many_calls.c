/* A function that is called from more than 16 places, a switch of more than 16 cases, and calls by more than 16 pointers. */
#include "input.h"
#include "multiscalar.h"

typedef unsigned function(unsigned);

static unsigned __attribute__((noinline)) mixed(unsigned value)
{
    return (value ^ value >> 3) * 2654435761u;
}

#define CALL(n) static unsigned call_##n(unsigned x) { return mixed(x + n) ^ n; }
CALL(0) CALL(1) CALL(2) CALL(3) CALL(4) CALL(5) CALL(6) CALL(7) CALL(8) CALL(9) CALL(10)
CALL(11) CALL(12) CALL(13) CALL(14) CALL(15) CALL(16) CALL(17) CALL(18) CALL(19) CALL(20)

static function *const functions[] = {
    call_0, call_1, call_2, call_3, call_4, call_5, call_6, call_7, call_8, call_9, call_10,
    call_11, call_12, call_13, call_14, call_15, call_16, call_17, call_18, call_19, call_20,
};

static unsigned chosen(unsigned number, unsigned x)
{
    switch (number) {
    case 0: return x + 1;
    case 1: return x * 3;
    case 2: return mixed(x);
    case 3: return x ^ 0x55;
    case 4: return mixed(x) + mixed(x + 1);
    case 5: return x >> 1;
    case 6: return x << 2;
    case 7: return ~x;
    case 8: return x - 9;
    case 9: return x * x;
    case 10: return x | 0x100;
    case 11: return x & 0xFFFF;
    case 12: return mixed(x) >> 4;
    case 13: return x + mixed(13);
    case 14: return x * 7 + 1;
    case 15: return x / 3;
    case 16: return x % 11;
    case 17: return x ^ x << 5;
    case 18: return 18;
    case 19: return -x;
    case 20: return x + 20;
    case 21: return mixed(mixed(x));
    default: return x;
    }
}

int main(void)
{
    unsigned x = INPUT(1, 12);
    for (unsigned n = 0; n < 21; n++)
        x = functions[n * 8 % 21](x);
    out(x);
    for (unsigned n = 0; n < 30; n++)
        x += chosen(n * 5 % 24, x);
    out(x);
    return 0;
}
