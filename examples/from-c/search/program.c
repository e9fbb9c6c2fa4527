/* Finds all places of a word in a text. Both are read-only data, so a task may look ahead of the head. */
#include "multiscalar.h"

static const char text[] = "a task has one entry; a task may have many exits; where a task ends, the next task begins, and so tasks follow tasks";
static const char word[] = "task";

int main(void)
{
    unsigned count = 0;
    for (const char *at = text; at < text + sizeof text - sizeof word;) {
        const char *here = at;
        SETTLE(here);
        at++;
        SETTLE(at);
        unsigned n = 0;
        while (n < sizeof word - 1 && here[n] == word[n])
            n++;
        if (n == sizeof word - 1) {
            count++;
            out(here - text);
        }
    }
    out(count);
    return 0;
}
