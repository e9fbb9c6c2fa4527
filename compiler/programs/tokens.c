/* Cuts a text into tokens by a machine of states: a switch of states around switches of letters. */
#include "input.h"
#include "multiscalar.h"

enum state { BETWEEN, NAME, NUMBER, HEXADECIMAL, TEXT, ESCAPED, SIGN, NOTE };
enum kind { NAMES, NUMBERS, TEXTS, SIGNS, NOTES, FAULTS, KINDS };

static const char source[] = INPUT("count = count + 0x1f; // more\nname(\"a \\\"text\\\"\", 42) <<= 7 @ x9;\nif (a != b) a = 0xffff * 16; // end\n",
    "while (x0 >= 10) { x0 = x0 - 0xA; put(\"\\n\"); }\n#\n// nothing\ny = \"no end\n");
static unsigned counts[KINDS], hash = 17;

static int is_letter(char it)
{
    return it >= 'a' && it <= 'z' || it >= 'A' && it <= 'Z' || it == '_';
}

static int is_digit(char it)
{
    return it >= '0' && it <= '9';
}

static enum state begun(char it)
{
    if (is_letter(it))
        return NAME;
    if (is_digit(it))
        return NUMBER;
    switch (it) {
    case '"': return TEXT;
    case '=': case '<': case '>': case '!': case '+': case '-': case '*': case '/': return SIGN;
    case '(': case ')': case '{': case '}': case ';': case ',': counts[SIGNS]++; return BETWEEN;
    case ' ': case '\n': return BETWEEN;
    default: counts[FAULTS]++; return BETWEEN;
    }
}

static enum state ended(enum kind kind, unsigned value)
{
    counts[kind]++;
    hash = hash * 31 + value;
    return BETWEEN;
}

int main(void)
{
    enum state state = BETWEEN;
    unsigned value = 0;
    for (const char *at = source; *at; at++) {
        enum state before = state;
        switch (state) {
        case BETWEEN:
            break;
        case NAME:
            if (!is_letter(*at) && !is_digit(*at))
                state = ended(NAMES, value);
            break;
        case NUMBER:
            if (*at == 'x' && value == '0')
                state = HEXADECIMAL;
            else if (!is_digit(*at))
                state = ended(NUMBERS, value);
            break;
        case HEXADECIMAL:
            if (!is_digit(*at) && (*at | 32) - 'a' > 5u)
                state = ended(NUMBERS, value);
            break;
        case TEXT:
            switch (*at) {
            case '\\': state = ESCAPED; break;
            case '\n': counts[FAULTS]++; state = BETWEEN; break;
            case '"': state = ended(TEXTS, value); continue;
            }
            break;
        case ESCAPED:
            state = TEXT;
            break;
        case SIGN:
            if (at[-1] == '/' && *at == '/')
                state = NOTE;
            else if (*at != '=' && *at != '<')
                state = ended(SIGNS, value);
            break;
        case NOTE:
            if (*at == '\n')
                state = ended(NOTES, value);
            break;
        }
        if (state == BETWEEN)
            state = begun(*at);
        value = before == BETWEEN ? *at : value * 7 + *at;
    }
    for (int n = 0; n < KINDS; n++)
        out(counts[n]);
    out(hash);
    return state;
}
