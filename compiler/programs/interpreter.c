/* An interpreter of a small stack machine, with a switch of many cases; its program computes primes. */
#include "input.h"
#include "multiscalar.h"

enum operation { PUSH, LOAD, STORE, ADD, SUBTRACT, MULTIPLY, REMAINDER, LESS, EQUAL, NOT, JUMP, JUMP_IF_ZERO, COPY, SWAP, DROP, PRINT, NEGATE, AND, OR, END };

/* for (n = 2; n < 30; n++) { for (d = 2; d * d <= n; d++) if (n % d == 0) goto next; print n; next: } */
static const signed char code[] = {
    PUSH, 2, STORE, 0,
    LOAD, 0, PUSH, INPUT(30, 23), LESS, JUMP_IF_ZERO, 53,
    PUSH, 2, STORE, 1,
    LOAD, 0, LOAD, 1, COPY, MULTIPLY, LESS, NOT, JUMP_IF_ZERO, 41,
    LOAD, 0, LOAD, 1, REMAINDER, JUMP_IF_ZERO, 44,
    LOAD, 1, PUSH, 1, ADD, STORE, 1, JUMP, 15,
    LOAD, 0, PRINT,
    LOAD, 0, PUSH, 1, ADD, STORE, 0, JUMP, 4,
    END,
};

static unsigned interpret(void)
{
    int stack[16], cells[4] = {0}, *top = stack;
    unsigned count = 0;
    for (int at = 0;; count++) {
        switch (code[at++]) {
        case PUSH: *top++ = code[at++]; break;
        case LOAD: *top++ = cells[code[at++]]; break;
        case STORE: cells[code[at++]] = *--top; break;
        case ADD: top--; top[-1] += top[0]; break;
        case SUBTRACT: top--; top[-1] -= top[0]; break;
        case MULTIPLY: top--; top[-1] *= top[0]; break;
        case REMAINDER: top--; top[-1] %= top[0]; break;
        case LESS: top--; top[-1] = top[-1] < top[0]; break;
        case EQUAL: top--; top[-1] = top[-1] == top[0]; break;
        case NOT: top[-1] = !top[-1]; break;
        case JUMP: at = code[at]; break;
        case JUMP_IF_ZERO: at = *--top ? at + 1 : code[at]; break;
        case COPY: top[0] = top[-1]; top++; break;
        case SWAP: { int kept = top[-1]; top[-1] = top[-2]; top[-2] = kept; break; }
        case DROP: top--; break;
        case PRINT: out(*--top); break;
        case NEGATE: top[-1] = -top[-1]; break;
        case AND: top--; top[-1] &= top[0]; break;
        case OR: top--; top[-1] |= top[0]; break;
        case END: return count;
        }
    }
}

int main(void)
{
    out(interpret());
    return 0;
}
