/* A state machine over a text, driven by a table: counts words, numbers and names with digits in them. */
#include "multiscalar.h"

enum { BETWEEN, WORD, NUMBER, NAME, STATES };
enum { SPACE, LETTER, DIGIT, KINDS };

static const char text[] = "in 1995 a unit4 of 16 units ran task7 and task12 ahead of 3 others, and 99 tasks waited";
static const unsigned char next[STATES][KINDS] = {
    {BETWEEN, WORD, NUMBER},
    {BETWEEN, WORD, NAME},
    {BETWEEN, NAME, NUMBER},
    {BETWEEN, NAME, NAME},
};

int main(void)
{
    unsigned state = BETWEEN, words = 0, numbers = 0, names = 0;
    for (const char *at = text; at < text + sizeof text;) {
        const char *here = at;
        SETTLE(here);
        at++;
        SETTLE(at);
        unsigned letter = *here;
        unsigned kind = letter - '0' < 10 ? DIGIT : (letter | 32) - 'a' < 26 ? LETTER : SPACE;
        unsigned before = state;
        state = next[before][kind];
        SETTLE(state);
        if (state == BETWEEN) {
            words += before == WORD;
            numbers += before == NUMBER;
            names += before == NAME;
        }
    }
    out(words);
    out(numbers);
    out(names);
    return 0;
}
