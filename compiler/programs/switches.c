/* A calculator in reverse Polish notation: a switch with far cases, and one in a loop. */
#include "input.h"
#include "multiscalar.h"

static const char text[] = INPUT("3 4 + 5 * 2 - n 100 / d 7 m 9 9 * s", "12 3 / 4 4 * + d * n 55 m 8 2 - s");

static int applied(char operation, int left, int right)
{
    switch (operation) {
    case '+': return left + right;
    case '-': return left - right;
    case '*': return left * right;
    case '/': return right ? left / right : -1;
    case 'm': return left > right ? left : right;
    case 's': return left << (right & 15);
    default: return 0x7fffffff;
    }
}

int main(void)
{
    int stack[16] = {0}, depth = 0, number = 0, has_number = 0;
    for (const char *at = text; *at; at++) {
        switch (*at) {
        case '0': case '1': case '2': case '3': case '4': case '5': case '6': case '7': case '8': case '9':
            number = number * 10 + *at - '0';
            has_number = 1;
            continue;
        case ' ':
            break;
        case 'n':
            stack[depth - 1] = -stack[depth - 1];
            break;
        case 'd':
            stack[depth] = stack[depth - 1];
            depth++;
            break;
        default:
            depth--;
            stack[depth - 1] = applied(*at, stack[depth - 1], stack[depth]);
            out(stack[depth - 1]);
        }
        if (has_number)
            stack[depth++] = number;
        number = has_number = 0;
    }
    return depth;
}
