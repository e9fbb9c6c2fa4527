/* Structures without padding, unaligned words, bit fields, and copies of memory. */
#include "input.h"
#include "multiscalar.h"

struct __attribute__((packed)) record {
    char kind;
    int number;
    short code;
    long long wide;
};

struct fields {
    unsigned low : 3, middle : 13, high : 16;
    int sign : 5;
};

static struct record records[5];
static unsigned char bytes[64];

void *memcpy(void *, const void *, __SIZE_TYPE__);
void *memset(void *, int, __SIZE_TYPE__);
void *memmove(void *, const void *, __SIZE_TYPE__);
int memcmp(const void *, const void *, __SIZE_TYPE__);

int main(void)
{
    for (int n = 0; n < 5; n++) {
        records[n].kind = 'a' + n;
        records[n].number = n * INPUT(-1234567, 7654321);
        records[n].code = n << 12;
        records[n].wide = (long long)records[n].number * 1000003;
    }
    struct record copy = records[3];
    out(copy.kind);
    out(copy.number);
    out(copy.code);
    out(copy.wide >> 32);
    out(copy.wide);
    memset(bytes, 0x5A, sizeof bytes);
    memcpy(bytes + 3, records, sizeof records[0] * 2);
    memmove(bytes + 5, bytes + 1, 40);
    unsigned hash = 0;
    for (unsigned n = 0; n < sizeof bytes; n++)
        hash = hash * 31 + bytes[n];
    out(hash);
    out(memcmp(bytes + 1, bytes + 5, 3) == 0);
    struct fields fields = {5, 4321, 54321, -9};
    fields.middle += fields.low;
    fields.sign -= 3;
    out(fields.middle);
    out(fields.high);
    out(fields.sign);
    return 0;
}
