/* The best value that fits a knapsack, by dynamic programming. */
#include "input.h"
#include "multiscalar.h"

#define CAPACITY 50

static const unsigned char weights[] = {INPUT(12, 10), 7, INPUT(11, 4), 8, 9, INPUT(6, 13), 5, 14},
                           values[] = {24, 13, INPUT(23, 9), 15, INPUT(16, 20), 11, 9, INPUT(28, 33)};
static int best[CAPACITY + 1];

int main(void)
{
    for (unsigned n = 0; n < sizeof weights; n++)
        for (int room = CAPACITY; room >= weights[n]; room--) {
            int with = best[room - weights[n]] + values[n];
            if (with > best[room])
                best[room] = with;
        }
    for (int room = 10; room <= CAPACITY; room += 10)
        out(best[room]);
    return 0;
}
