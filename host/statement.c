/* statement: fails statements over a tape. Two days that are cut off and a third that is still settling, as
 * words; prints what the library answers for some accounts, and what is refused. */
#include <stdio.h>

#include "settlement_day.h"

enum { MOST = 256 };

static uint32_t words[MOST];
static size_t length;

/* Writes an instruction behind those that are there. */
static void put(uint32_t kind, uint32_t a, uint32_t b, uint32_t c, uint32_t d)
{
    uint32_t quotes[DAY_QUOTES];
    size_t count = 0;
    for (size_t issue = 0; issue < DAY_ISSUES; issue++) {
        quotes[issue] = 100000;
        quotes[DAY_ISSUES + issue] = 0;
    }
    uint32_t refusal =
        day_write(kind, a, b, c, d, quotes, DAY_QUOTES, words + length, MOST - length, &count);
    if (refusal != DAY_DONE) {
        printf("write refused by %u: %s\n", (unsigned)refusal, day_refusal_text(refusal));
    }
    length += count;
}

/* Prints an account's statement in an issue. */
static void tell(uint32_t issue, uint32_t account)
{
    uint64_t numbers[DAY_STATEMENT_NUMBERS];
    uint32_t refusal = day_statement(words, length, issue, account, numbers);
    printf("issue %u, account %u:", (unsigned)issue, (unsigned)account);
    if (refusal != DAY_DONE) {
        printf(" refused by %u: %s\n", (unsigned)refusal, day_refusal_text(refusal));
        return;
    }
    printf(" due %llu, delivered %llu, failed %llu, resolved %llu, failed over due %llu / %llu\n",
           (unsigned long long)numbers[0], (unsigned long long)numbers[1],
           (unsigned long long)numbers[2], (unsigned long long)numbers[3],
           (unsigned long long)numbers[4], (unsigned long long)numbers[5]);
}

int main(void)
{
    tell(0, 4);
    put(DAY_TRADE, 0, 4, 1, 100);
    put(DAY_TRADE, 0, 5, 2, 50);
    put(DAY_CLOSE, 0, 0, 0, 0);
    put(DAY_DELIVER, 0, 4, 60, 0);
    put(DAY_DELIVER, 0, 5, 60, 0); /* refused: it owes 50 */
    tell(0, 4);
    put(DAY_CUTOFF, 0, 0, 0, 0);
    put(DAY_RESOLVE, 0, 4, 15, 0);
    put(DAY_PAIR_OFF, 0, 4, 0, 0);
    tell(0, 4);
    tell(0, 5);
    put(DAY_ROLL, 1, 300, 0, 0);
    put(DAY_TRADE, 0, 4, 2, 30);
    put(DAY_CLOSE, 0, 0, 0, 0);
    put(DAY_DELIVER, 0, 4, 30, 0);
    put(DAY_RESOLVE, 0, 5, 50, 0);
    put(DAY_CUTOFF, 0, 0, 0, 0);
    put(DAY_ROLL, 1, 300, 0, 0);
    put(DAY_TRADE, 0, 4, 1, 10);
    put(DAY_CLOSE, 0, 0, 0, 0);
    put(DAY_RESOLVE, 0, 4, 5, 0);
    tell(0, 4);
    tell(0, 5);
    words[length++] = 0; /* no word of a tape: the span ends here */
    put(DAY_CUTOFF, 0, 0, 0, 0);
    tell(0, 4);
    tell(0, 1);
    tell(16, 64);
    tell(0, 64);
    if (fflush(stdout) != 0) {
        fputs("statement: the lines could not be written\n", stderr);
        return 3;
    }
    return 0;
}
