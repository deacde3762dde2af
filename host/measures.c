/* measures: the value of lots, or the charge on them, in yen. Prints what the library
 * answers; a refusal is told with the number that is out of range. */
#include <ctype.h>
#include <errno.h>
#include <inttypes.h>
#include <stdio.h>
#include <stdlib.h>
#include <string.h>

#include "settlement_day.h"

enum status { DONE = 0, REFUSED = 1, BAD_USE = 2, NOT_WRITTEN = 3 };

/* What a number is called, its range, and the refusal that a number outside it meets. */
struct range {
    const char *name;
    uint32_t low;
    uint32_t high;
    uint32_t refusal;
};

enum number { LOTS, PRICE, DAYS, RATE, ACCRUED, NUMBERS };

/* In the order of `number`. */
static const struct range ranges[NUMBERS] = {
    {"LOTS", 1, DAY_MOST_LOTS, DAY_REFUSED_LOTS},
    {"PRICE", 1, DAY_MOST_PRICE, DAY_REFUSED_TERMS},
    {"DAYS", 1, DAY_MOST_DAYS, DAY_REFUSED_TERMS},
    {"RATE", 0, DAY_MOST_RATE, DAY_REFUSED_TERMS},
    {"ACCRUED", 0, DAY_MOST_ACCRUED, DAY_REFUSED_TERMS},
};

/* What a command takes, in its order: how many numbers, and which. */
struct command {
    const char *name;
    size_t count;
    enum number takes[NUMBERS];
};

static const struct command value = {"value", 3, {LOTS, PRICE, ACCRUED}};
static const struct command charge = {"charge", 5, {LOTS, PRICE, DAYS, RATE, ACCRUED}};

static void usage(FILE *to)
{
    fputs("usage: measures value LOTS PRICE ACCRUED\n"
          "       measures charge LOTS PRICE DAYS RATE ACCRUED\n"
          "Prints yen, rounded down.\n"
          "  LOTS     1 to 20000000, lots of 50,000 yen face\n"
          "  PRICE    1 to 200000, thousandths of a yen per 100 yen face\n"
          "  DAYS     1 to 12\n"
          "  RATE     0 to 10000, hundredths of a percent a year\n"
          "  ACCRUED  0 to 10000, accrued interest in the measure of the price;\n"
          "           price and accrued together at most 200000\n"
          "Status: 0 done, 1 refused, 2 bad use, 3 the answer could not be written.\n",
          to);
}

static int bad_use(void)
{
    usage(stderr);
    return BAD_USE;
}

/* Reads a whole number of 32 bits, digits alone; 0 where the word is none. */
static int read_number(const char *word, uint32_t *number)
{
    char *end;
    if (!isdigit((unsigned char)word[0])) {
        return 0;
    }
    errno = 0;
    uintmax_t read = strtoumax(word, &end, 10);
    if (*end != '\0' || errno != 0 || read > UINT32_MAX) {
        return 0;
    }
    *number = (uint32_t)read;
    return 1;
}

/* Says which number is out of which range, or that price and accrued together are too much. */
static int refused(uint32_t refusal, const uint32_t *numbers, const struct command *command)
{
    int told = 0;
    fprintf(stderr, "measures: refused %" PRIu32, refusal);
    for (size_t i = 0; i < command->count; i++) {
        enum number at = command->takes[i];
        const struct range *r = &ranges[at];
        if (r->refusal == refusal && (numbers[at] < r->low || numbers[at] > r->high)) {
            fprintf(stderr, ": %s is %" PRIu32 ", give %" PRIu32 " to %" PRIu32, r->name,
                    numbers[at], r->low, r->high);
            told = 1;
        }
    }
    if (!told) {
        fprintf(stderr, ": PRICE and ACCRUED together are %" PRIu32 ", give at most %" PRIu32,
                numbers[PRICE] + numbers[ACCRUED], (uint32_t)DAY_MOST_PRICE);
    }
    fputc('\n', stderr);
    return REFUSED;
}

int main(int argc, char **argv)
{
    uint32_t n[NUMBERS] = {0};
    const struct command *command;
    uint64_t yen = 0;

    if (argc == 2 && strcmp(argv[1], "--help") == 0) {
        usage(stdout);
        return DONE;
    }
    if (argc > 1 && strcmp(argv[1], "value") == 0) {
        command = &value;
    } else if (argc > 1 && strcmp(argv[1], "charge") == 0) {
        command = &charge;
    } else {
        fputs("measures: say 'value' or 'charge'\n", stderr);
        return bad_use();
    }
    if ((size_t)argc != command->count + 2) {
        fprintf(stderr, "measures: %s takes %zu numbers, not %d\n", command->name, command->count,
                argc - 2);
        return bad_use();
    }
    for (size_t i = 0; i < command->count; i++) {
        enum number at = command->takes[i];
        if (!read_number(argv[i + 2], &n[at])) {
            fprintf(stderr, "measures: %s is '%s', not a whole number from 0 to %" PRIu32 "\n",
                    ranges[at].name, argv[i + 2], UINT32_MAX);
            return bad_use();
        }
    }
    uint32_t refusal =
        command == &value ? day_value(n[LOTS], n[PRICE], n[ACCRUED], &yen)
                          : day_charge(n[LOTS], n[PRICE], n[DAYS], n[RATE], n[ACCRUED], &yen);
    if (refusal != 0) {
        return refused(refusal, n, command);
    }
    if (printf("%" PRIu64 "\n", yen) < 0 || fflush(stdout) != 0) {
        perror("measures: the answer could not be written");
        return NOT_WRITTEN;
    }
    return DONE;
}
