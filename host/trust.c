/* trust: a fail inside a trust account. Nine trade reports of a day, the shares of a fail in two
 * draws, and what is refused; prints what the library answers. */
#include <stdio.h>

#include "settlement_day.h"

enum { REPORTS = 9, FAILING = 4 };

/* Sub-account 0 receives more than it delivers, 1 as much; 2 and 4 have a report with an earlier
 * fail. */
static const uint32_t sub_accounts[REPORTS] = {0, 0, 1, 1, 2, 2, 3, 4, 4};
static const uint32_t counterparties[REPORTS] = {4, 5, 4, 6, 6, 4, 4, 6, 4};
static const int32_t lots[REPORTS] = {30000, -10000, 20000, -20000, 40000, 5000, 8000, -2000, 1000};
static const uint8_t earlier[REPORTS] = {0, 0, 0, 0, 0, 1, 0, 1, 0};

static const uint32_t drawn[REPORTS] = {4, 8, 6, 1, 0, 5, 3, 2, 7};
static const uint32_t ascending[REPORTS] = {0, 1, 2, 3, 4, 5, 6, 7, 8};
static const uint32_t twice[REPORTS] = {0, 1, 2, 3, 4, 5, 6, 7, 7};

/* Prints the shares of a fail, or why it is refused. */
static void share(const char *name, const uint32_t draw[REPORTS], uint32_t fail)
{
    uint32_t out[DAY_REPORTS] = {0};
    uint32_t refusal = day_trust(sub_accounts, REPORTS, counterparties, REPORTS, lots, REPORTS,
                                 earlier, REPORTS, draw, REPORTS, fail, FAILING, out, DAY_REPORTS);
    printf("a fail of %u, %s:", (unsigned)fail, name);
    if (refusal != DAY_DONE) {
        printf(" refused by %u: %s\n", (unsigned)refusal, day_refusal_text(refusal));
        return;
    }
    for (size_t report = 0; report < REPORTS; report++) {
        printf(" %u", (unsigned)out[report]);
    }
    putchar('\n');
}

int main(void)
{
    share("drawn", drawn, 50000);
    share("drawn", drawn, 33000);
    share("in ascending order", ascending, 33000);
    share("drawn", drawn, 79000);
    share("drawn", drawn, 79001);
    share("7 drawn twice", twice, 33000);
    share("drawn", drawn, 0);
    if (fflush(stdout) != 0) {
        fputs("trust: the lines could not be written\n", stderr);
        return 3;
    }
    return 0;
}
