/* A Huffman code of a text: lengths of the code, and how many bits the text takes. */
#include "input.h"
#include "multiscalar.h"

#define LETTERS 32
#define NODES (2 * LETTERS)

static const char text[] = INPUT("create masks and forward bits say when each register leaves a task and a release sends what a path does not write",
    "a second text has other letters so another tree comes of it which is why zebras and quick foxes jump in here twice");
static int weight[NODES], parent[NODES];

int main(void)
{
    int nodes = LETTERS;
    for (const char *at = text; *at; at++)
        weight[*at & 31]++;
    for (;;) {
        int first = -1, second = -1;
        for (int n = 0; n < nodes; n++) {
            if (!weight[n] || parent[n])
                continue;
            if (first < 0 || weight[n] < weight[first]) {
                second = first;
                first = n;
            } else if (second < 0 || weight[n] < weight[second])
                second = n;
        }
        if (second < 0)
            break;
        weight[nodes] = weight[first] + weight[second];
        parent[first] = parent[second] = nodes++;
    }
    int bits = 0;
    for (int n = 0; n < LETTERS; n++) {
        int length = 0;
        for (int at = n; parent[at]; at = parent[at])
            length++;
        bits += length * weight[n];
        if (length)
            out(n << 8 | length);
    }
    out(bits);
    return 0;
}
