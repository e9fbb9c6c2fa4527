/* A state machine: reads numbers in decimal, hexadecimal and octal, with signs, out of a text. */
#include "input.h"
#include "multiscalar.h"

static const char text[] = INPUT("12, -7; 0x1F + 0755 (skip me) 42-0xBEEF,,,  900 x9 0 -0x10",
    "0x10 -3 (77) 012, 9999 skip 0xFFF; -042 5 5 -5 word2 1x");

enum state { BETWEEN, SIGN, ZERO, DECIMAL, OCTAL, HEXADECIMAL, WORD };

static int digit(char letter)
{
    if (letter >= '0' && letter <= '9')
        return letter - '0';
    if (letter >= 'a' && letter <= 'f')
        return letter - 'a' + 10;
    if (letter >= 'A' && letter <= 'F')
        return letter - 'A' + 10;
    return 99;
}

int main(void)
{
    enum state state = BETWEEN;
    int value = 0, sign = 1;
    for (const char *at = text;; at++) {
        char letter = *at;
        int of = digit(letter);
        switch (state) {
        case BETWEEN:
        case SIGN:
            value = 0;
            if (state == BETWEEN)
                sign = 1;
            if (letter == '-') {
                sign = -1;
                state = SIGN;
            } else if (letter == '0')
                state = ZERO;
            else if (of < 10) {
                value = of;
                state = DECIMAL;
            } else
                state = letter >= 'a' && letter <= 'z' ? WORD : BETWEEN;
            break;
        case ZERO:
            if (letter == 'x') {
                state = HEXADECIMAL;
                break;
            }
            state = OCTAL;
            /* fall through */
        case OCTAL:
        case DECIMAL:
        case HEXADECIMAL: {
            int base = state == OCTAL ? 8 : state == DECIMAL ? 10 : 16;
            if (of < base)
                value = value * base + of;
            else {
                out(sign * value);
                sign = 1;
                state = BETWEEN;
                if (letter == '-') {
                    sign = -1;
                    value = 0;
                    state = SIGN;
                }
            }
            break;
        }
        case WORD:
            if (!(letter >= 'a' && letter <= 'z') && of > 9)
                state = BETWEEN;
            break;
        }
        if (!letter)
            return 0;
    }
}
