/* Numbers to Roman numerals and back; each numeral is compared with the one before it, as text. */
#include <stddef.h>

#include "input.h"
#include "multiscalar.h"

size_t strlen(const char *);
int strcmp(const char *, const char *);
void *memcpy(void *, const void *, size_t);

static const struct {
    int value;
    char letters[4];
} signs[] = {{1000, "M"}, {900, "CM"}, {500, "D"}, {400, "CD"}, {100, "C"}, {90, "XC"}, {50, "L"},
             {40, "XL"},  {10, "X"},   {9, "IX"},  {5, "V"},    {4, "IV"},  {1, "I"}};

static void written(int number, char *into)
{
    for (int n = 0; number > 0; n++)
        for (; number >= signs[n].value; number -= signs[n].value) {
            size_t length = strlen(signs[n].letters);
            memcpy(into, signs[n].letters, length);
            into += length;
        }
    *into = 0;
}

static int value_of(char letter)
{
    for (unsigned n = 0; n < sizeof signs / sizeof *signs; n += 2)
        if (signs[n].letters[0] == letter)
            return signs[n].value;
    return 0;
}

static int number_of(const char *numeral)
{
    int sum = 0;
    for (; *numeral; numeral++) {
        int value = value_of(*numeral);
        sum += value < value_of(numeral[1]) ? -value : value;
    }
    return sum;
}

int main(void)
{
    static char now[16], before[16];
    int wrong = 0, rising = 0;
    unsigned letters = 0;
    for (int number = INPUT(1, 1066); number < 4000; number += INPUT(173, 97)) {
        written(number, now);
        wrong += number_of(now) != number;
        rising += strcmp(before, now) < 0;
        letters += strlen(now);
        memcpy(before, now, sizeof now);
    }
    out(letters);
    out(rising);
    return wrong + rising;
}
