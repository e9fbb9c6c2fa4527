/* Jumps to labels whose addresses are in a table, and variable numbers of arguments. */
#include <stdarg.h>
#include "input.h"
#include "multiscalar.h"

static int sum_of(int count, ...)
{
    va_list arguments;
    int sum = 0;
    va_start(arguments, count);
    while (count--)
        sum = sum * 3 + va_arg(arguments, int);
    va_end(arguments);
    return sum;
}

static unsigned walk(const char *path)
{
    static void *const places[] = {&&up, &&down, &&twice, &&end};
    unsigned value = 1;
    goto *places[*path++ & 3];
up:
    value += 5;
    goto *places[*path++ & 3];
down:
    value -= 2;
    goto *places[*path++ & 3];
twice:
    value *= 2;
    goto *places[*path++ & 3];
end:
    return value;
}

int main(void)
{
    out(walk(INPUT("\0\2\1\2\2\0\1\3", "\2\2\0\0\1\0\2\1\1\3")));
    out(sum_of(6, 1, 2, 3, 4, 5, 6));
    return 0;
}
