/* funds: obligated funds for a default. Five participants, their base contributions, the shares of
 * the funds in several rounds, and what is refused; prints what the library answers. Amounts are in
 * 100 million yen. */
#include <stdio.h>

#include "settlement_day.h"

enum { PARTICIPANTS = 5, TENTHS = 25 };

/* Participants 1 and 3 have equal averages, 4 has none. */
static const uint64_t averages[PARTICIPANTS] = {20, 60, 10, 60, 0};
static const uint64_t given[PARTICIPANTS] = {70, 30, 10, 200, 5};

/* Prints the amounts by participant number, or why they are refused. */
static void tell(uint32_t refusal, const uint64_t amounts[DAY_PARTICIPANTS])
{
    if (refusal != DAY_DONE) {
        printf(" refused by %u: %s\n", (unsigned)refusal, day_refusal_text(refusal));
        return;
    }
    for (size_t participant = 0; participant < PARTICIPANTS; participant++) {
        printf(" %llu", (unsigned long long)amounts[participant]);
    }
    putchar('\n');
}

/* The base contributions for a factor in tenths. */
static void bases(uint64_t tenths)
{
    uint64_t out[DAY_PARTICIPANTS] = {0};
    uint32_t refusal = day_bases(averages, PARTICIPANTS, tenths, out);
    printf("bases for %llu tenths:", (unsigned long long)tenths);
    tell(refusal, out);
}

/* The shares of the funds, by the bases of the averages. */
static void funds(uint64_t amount)
{
    uint64_t out[DAY_PARTICIPANTS] = {0};
    uint32_t refusal = day_funds(averages, PARTICIPANTS, TENTHS, amount, out);
    printf("funds of %llu:", (unsigned long long)amount);
    tell(refusal, out);
}

/* The shares of the funds, by given bases, so many of them. */
static void shares(size_t length, uint64_t amount)
{
    uint64_t out[DAY_PARTICIPANTS] = {0};
    uint32_t refusal = day_shares(averages, PARTICIPANTS, given, length, amount, out);
    printf("funds of %llu, %u given bases:", (unsigned long long)amount, (unsigned)length);
    tell(refusal, out);
}

int main(void)
{
    bases(TENTHS);
    bases(1000001);
    funds(49);
    funds(110);
    funds(399);
    funds(401);
    funds(1000001);
    shares(PARTICIPANTS, 150);
    shares(PARTICIPANTS, 316);
    shares(PARTICIPANTS - 1, 150);
    if (fflush(stdout) != 0) {
        fputs("funds: the lines could not be written\n", stderr);
        return 3;
    }
    return 0;
}
