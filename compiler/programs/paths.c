/* Shortest paths in a small graph, by Dijkstra's and by Floyd's method. */
#include "input.h"
#include "multiscalar.h"

#define COUNT 9
#define FAR 9999

static const unsigned char edges[][3] = {{0, 1, INPUT(4, 9)}, {0, 7, INPUT(8, 2)}, {1, 2, INPUT(8, 3)}, {1, 7, 11}, {2, 3, INPUT(7, 1)}, {2, 8, 2}, {2, 5, 4}, {3, 4, 9}, {3, 5, 14}, {4, 5, 10}, {5, 6, 2}, {6, 7, 1}, {6, 8, 6}, {7, 8, 7}};
static int length[COUNT][COUNT], least[COUNT];

int main(void)
{
    for (int n = 0; n < COUNT; n++)
        for (int k = 0; k < COUNT; k++)
            length[n][k] = n == k ? 0 : FAR;
    for (unsigned n = 0; n < sizeof edges / 3; n++)
        length[edges[n][0]][edges[n][1]] = length[edges[n][1]][edges[n][0]] = edges[n][2];
    unsigned done = 0;
    for (int n = 0; n < COUNT; n++)
        least[n] = n ? FAR : 0;
    for (int round = 0; round < COUNT; round++) {
        int nearest = -1;
        for (int n = 0; n < COUNT; n++)
            if (!(done >> n & 1) && (nearest < 0 || least[n] < least[nearest]))
                nearest = n;
        done |= 1u << nearest;
        for (int n = 0; n < COUNT; n++)
            if (least[nearest] + length[nearest][n] < least[n])
                least[n] = least[nearest] + length[nearest][n];
    }
    for (int by = 0; by < COUNT; by++)
        for (int n = 0; n < COUNT; n++)
            for (int k = 0; k < COUNT; k++)
                if (length[n][by] + length[by][k] < length[n][k])
                    length[n][k] = length[n][by] + length[by][k];
    int same = 1, sum = 0;
    for (int n = 0; n < COUNT; n++) {
        same &= length[0][n] == least[n];
        sum += least[n];
        out(least[n]);
    }
    out(same);
    out(sum);
    return 0;
}
