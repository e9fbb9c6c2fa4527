/* A machine that sells: each state is a function, which gives back the function of the next state. */
#include "input.h"
#include "multiscalar.h"

struct seller;
struct state {
    struct state (*next)(struct seller *, int);
};
struct seller {
    int paid, sold, given_back, refused;
    void (*at_sale)(struct seller *, int);
};

static struct state waiting(struct seller *, int), paying(struct seller *, int), broken(struct seller *, int);

static void counted(struct seller *it, int price)
{
    it->sold++;
    it->paid -= price;
}

static void counted_twice(struct seller *it, int price)
{
    counted(it, price / 2);
    it->sold += it->paid > 20;
}

static struct state waiting(struct seller *it, int event)
{
    if (event > 0) {
        it->paid = event;
        return (struct state){paying};
    }
    it->refused++;
    return (struct state){event < -90 ? broken : waiting};
}

static struct state paying(struct seller *it, int event)
{
    if (event > 0)
        it->paid += event;
    else if (it->paid + event >= 0) {
        it->at_sale(it, -event);
        it->given_back += it->paid;
        return (struct state){waiting};
    } else
        it->refused++;
    return (struct state){it->paid > 200 ? broken : paying};
}

static struct state broken(struct seller *it, int event)
{
    it->at_sale = it->at_sale == counted ? counted_twice : counted;
    return event % 3 ? (struct state){broken} : waiting(it, event);
}

int main(void)
{
    struct seller seller = {.at_sale = counted};
    struct state state = {waiting};
    unsigned random = INPUT(12345, 777);
    for (int n = 0; n < INPUT(120, 90); n++) {
        random = random * 1103515245 + 12345;
        int event = (int)(random >> 16 & 127) - 50;
        state = state.next(&seller, event);
    }
    out(seller.sold);
    out(seller.given_back);
    out(seller.refused);
    out(seller.paid);
    return state.next == waiting ? 1 : state.next == paying ? 2 : 3;
}
