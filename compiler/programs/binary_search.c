/* Binary search in a sorted table, and how many steps it takes. */
#include "input.h"
#include "multiscalar.h"

#define COUNT 128

static unsigned numbers[COUNT], steps;

static int found(unsigned wanted)
{
    int low = 0, high = COUNT - 1;
    while (low <= high) {
        int middle = (low + high) / 2;
        steps++;
        if (numbers[middle] == wanted)
            return middle;
        if (numbers[middle] < wanted)
            low = middle + 1;
        else
            high = middle - 1;
    }
    return -1;
}

int main(void)
{
    for (unsigned n = 0; n < COUNT; n++)
        numbers[n] = n * n + n / 3;
    int hits = 0, sum = 0;
    for (unsigned wanted = 0; wanted < 1000; wanted += INPUT(7, 9)) {
        int at = found(wanted);
        if (at >= 0) {
            hits++;
            sum += at;
        }
    }
    out(hits);
    out(sum);
    out(steps);
    return 0;
}
