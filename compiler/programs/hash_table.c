/* A hash table with open addressing: counts words of a text. */
#include "input.h"
#include "multiscalar.h"

#define SLOTS 64

static const char text[] = INPUT("the unit at the head retires and the unit behind the head becomes the head and the queue goes on "
                           "and the head of the queue is the oldest task and the tail is the youngest task of the queue",
    "a task is a part of the code and a unit runs a task and the next unit runs the next task and so all "
    "units run side by side and the oldest of them all is the head that alone may write to memory");

static struct slot {
    const char *word;
    int length, count;
} slots[SLOTS];

static int same(const char *left, const char *right, int length)
{
    for (int n = 0; n < length; n++)
        if (left[n] != right[n])
            return 0;
    return 1;
}

static void note(const char *word, int length)
{
    unsigned hash = 2166136261u;
    for (int n = 0; n < length; n++)
        hash = (hash ^ (unsigned char)word[n]) * 16777619u;
    unsigned at = hash % SLOTS;
    while (slots[at].word && !(slots[at].length == length && same(slots[at].word, word, length)))
        at = (at + 1) % SLOTS;
    slots[at].word = word;
    slots[at].length = length;
    slots[at].count++;
}

int main(void)
{
    for (const char *at = text; *at;) {
        const char *begin = at;
        while (*at && *at != ' ')
            at++;
        note(begin, at - begin);
        if (*at)
            at++;
    }
    for (int n = 0; n < SLOTS; n++)
        if (slots[n].word)
            out(n << 16 | slots[n].length << 8 | slots[n].count);
    return 0;
}
