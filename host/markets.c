/* markets: every small market, each once. Lists the markets of a few accounts, counts those of others, by
 * their fail entries too, and shows what is refused. */
#include <stdio.h>

#include "settlement_day.h"

static int32_t nets[DAY_MARKET_PLACES];

/* Prints why a call is refused; is it? */
static int told(uint32_t refusal)
{
    if (refusal != DAY_DONE) {
        printf(" refused by %u\n", (unsigned)refusal);
    }
    return refusal != DAY_DONE;
}

/* The markets of so many accounts: their number, and the nets of each where they are few. */
static void list(uint32_t accounts, uint32_t most, size_t places)
{
    uint32_t count;
    uint32_t refusal = day_markets(accounts, most, nets, places, &count);
    printf("%u accounts within %u:", (unsigned)accounts, (unsigned)most);
    if (told(refusal)) {
        return;
    }
    printf(" %u markets\n", (unsigned)count);
    for (size_t market = 0; market < count && count <= 7; market++) {
        for (size_t account = 0; account < accounts; account++) {
            printf(" %3ld", (long)nets[market * accounts + account]);
        }
        putchar('\n');
    }
}

/* The markets by their fail entries, for so many delivered lots. */
static void fails(uint32_t accounts, uint32_t most, const uint32_t *delivered, size_t length)
{
    uint32_t counts[DAY_MARKET_COUNTS];
    uint32_t refusal = day_market_fails(accounts, most, delivered, length, counts);
    printf("%u accounts within %u, delivered", (unsigned)accounts, (unsigned)most);
    for (size_t account = 0; account < length; account++) {
        printf(" %u", (unsigned)delivered[account]);
    }
    putchar(':');
    if (told(refusal)) {
        return;
    }
    for (size_t entries = 0; entries < DAY_MARKET_COUNTS; entries++) {
        printf(" %u", (unsigned)counts[entries]);
    }
    putchar('\n');
}

int main(void)
{
    static const uint32_t none[DAY_MARKET_ACCOUNTS + 1] = {0};
    static const uint32_t some[DAY_MARKET_ACCOUNTS] = {1, 0, 2, 0, 0};
    static const uint32_t many[3] = {3, 0, 0};
    list(3, 1, DAY_MARKET_PLACES);
    list(4, 1, DAY_MARKET_PLACES);
    list(DAY_MARKET_ACCOUNTS, DAY_MARKET_NET, DAY_MARKET_PLACES);
    list(0, DAY_MARKET_NET, DAY_MARKET_PLACES);
    list(DAY_MARKET_ACCOUNTS + 1, 1, DAY_MARKET_PLACES);
    list(1, DAY_MARKET_NET + 1, DAY_MARKET_PLACES);
    list(3, 1, DAY_MARKET_PLACES - 1);
    fails(4, 1, none, 4);
    fails(DAY_MARKET_ACCOUNTS, DAY_MARKET_NET, none, DAY_MARKET_ACCOUNTS);
    fails(DAY_MARKET_ACCOUNTS, DAY_MARKET_NET, some, DAY_MARKET_ACCOUNTS);
    fails(3, 2, many, 3);
    fails(3, 2, many, 2);
    fails(DAY_MARKET_ACCOUNTS + 1, 2, none, DAY_MARKET_ACCOUNTS + 1);
    if (fflush(stdout) != 0) {
        fputs("markets: the lines could not be written\n", stderr);
        return 3;
    }
    return 0;
}
