/* Finds a word in a text, letter by letter and by Horspool's method. */
#include "input.h"
#include "multiscalar.h"

static const char text[] = INPUT("a task has one entry; a task may have many exits; where a task ends, the next task begins, and so the tasks follow each other",
    "each unit of a ring has its own words of the registers, and each sends on to the next of the ring what its task has made; so tasks begin early");

static int length_of(const char *word)
{
    int length = 0;
    while (word[length])
        length++;
    return length;
}

static int simple(const char *word, int from)
{
    for (int at = from; text[at]; at++) {
        int n = 0;
        while (word[n] && text[at + n] == word[n])
            n++;
        if (!word[n])
            return at;
    }
    return -1;
}

static int horspool(const char *word)
{
    unsigned char skip[128];
    int length = length_of(word), end = length_of(text);
    for (int n = 0; n < 128; n++)
        skip[n] = length;
    for (int n = 0; n < length - 1; n++)
        skip[(int)word[n]] = length - 1 - n;
    for (int at = length - 1; at < end; at += skip[(int)text[at]]) {
        int n = 0;
        while (n < length && text[at - n] == word[length - 1 - n])
            n++;
        if (n == length)
            return at - length + 1;
    }
    return -1;
}

int main(void)
{
    for (int at = simple("task", 0); at >= 0; at = simple("task", at + 1))
        out(at);
    out(horspool("tasks"));
    out(horspool("begins"));
    out(horspool("ends with"));
    return 0;
}
