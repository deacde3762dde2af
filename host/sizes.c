/* sizes: unit sizes tried on a simulated desk. Account 0 owes 100,000 lots of issue 0, of which 1 is
 * due 60,000 and 2 is due 40,000; all three deliver from settlement account 0, which holds half of
 * it. Prints what comes of each size, and what is refused. */
#include <stdio.h>

#include "settlement_day.h"

static struct day_book book;
static uint32_t settles[DAY_ACCOUNTS];
static uint32_t inventories[DAY_INVENTORIES];

/* Prints rounds, deliveries and the lots of issue 0 still owed, or why it is refused. */
static void try_size(uint32_t size)
{
    struct day_simulated tried = day_book_simulate(&book, settles, inventories, size);
    printf("unit size %u:", (unsigned)size);
    if (tried.refusal != DAY_DONE) {
        printf(" refused by %u: %s\n", (unsigned)tried.refusal, day_refusal_text(tried.refusal));
        return;
    }
    printf(" rounds %llu, deliveries %llu, still owed %u\n", (unsigned long long)tried.rounds,
           (unsigned long long)tried.deliveries, (unsigned)tried.owed[0]);
}

int main(void)
{
    static const uint32_t sizes[] = {100000, 50000, 10000, 1000, 1, 0, 100001};
    day_book_fresh(&book);
    if (day_book_trade(&book, 0, 0, 1, 60000).refusal != DAY_DONE ||
        day_book_trade(&book, 0, 0, 2, 40000).refusal != DAY_DONE) {
        fputs("sizes: a trade is refused\n", stderr);
        return 1;
    }
    inventories[0] = 50000;
    for (size_t at = 0; at < sizeof sizes / sizeof sizes[0]; at++) {
        try_size(sizes[at]);
    }
    settles[63] = DAY_SETTLEMENT_ACCOUNTS;
    try_size(1);
    if (fflush(stdout) != 0) {
        fputs("sizes: the lines could not be written\n", stderr);
        return 3;
    }
    return 0;
}
