/* Check digits of numbers with 16 and 13 digits; returns how many are wrong, and ends by exit at one that is none. */
#include <stdlib.h>

#include "input.h"
#include "multiscalar.h"

static const char *const cards[] = {
    INPUT("4539578763621486", "4539578763621487"), "6011000990139424", INPUT("79927398713", "79927398710"), "30569309025904",
    "1234567812345670",                            "5555555555554444", INPUT("4111111111111112", "4111111111111111"), "978020137962",
    "49927398716",                                 "49927398717",      INPUT("1234567812345678", "12345678x2345678"),
};

static int digit(char letter)
{
    if (letter < '0' || letter > '9')
        exit(200 + letter % 50);
    return letter - '0';
}

static int is_wrong(const char *card)
{
    int length = 0, sum = 0;
    while (card[length])
        length++;
    for (int n = length - 1, doubled = 0; n >= 0; n--, doubled = !doubled) {
        int value = digit(card[n]) << doubled;
        sum += value > 9 ? value - 9 : value;
    }
    return sum % 10 != 0;
}

int main(void)
{
    int wrong = 0;
    for (unsigned n = 0; n < sizeof cards / sizeof *cards; n++) {
        int more = is_wrong(cards[n]);
        out(more);
        wrong += more;
    }
    return wrong ? wrong : -1;
}
