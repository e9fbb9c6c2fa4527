/* The edit distance of words. */
#include "input.h"
#include "multiscalar.h"

#define LONGEST 24

static int least(int a, int b, int c)
{
    int least = a < b ? a : b;
    return least < c ? least : c;
}

static int distance(const char *left, const char *right)
{
    int row[LONGEST + 1], columns = 0;
    while (right[columns])
        columns++;
    for (int n = 0; n <= columns; n++)
        row[n] = n;
    for (int line = 0; left[line]; line++) {
        int diagonal = row[0];
        row[0] = line + 1;
        for (int column = 1; column <= columns; column++) {
            int above = row[column];
            row[column] = least(above + 1, row[column - 1] + 1, diagonal + (left[line] != right[column - 1]));
            diagonal = above;
        }
    }
    return row[columns];
}

int main(void)
{
    out(distance(INPUT("kitten", "intention"), INPUT("sitting", "execution")));
    out(distance(INPUT("multiscalar", "register"), INPUT("superscalar", "resistor")));
    out(distance(INPUT("speculation", "forwarding"), INPUT("prediction", "rewarding")));
    out(distance("", "retire"));
    return 0;
}
