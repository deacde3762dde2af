/* stack: how much stack each function of the library uses, measured on a thread whose stack was
 * painted before. Each call is made on a day with nets in all issues and accounts, all issues marked,
 * and a ledger of many fails, so that it goes its whole way; then on a day on which full units are
 * dealt in turn. Fails where one uses more than DAY_STACK_BYTES, or a statement more than
 * DAY_STATEMENT_STACK_BYTES. */
#ifndef _GNU_SOURCE
#define _POSIX_C_SOURCE 200809L
#endif
#include <pthread.h>
#include <stdio.h>

#include "settlement_day.h"

enum { STACK = 1 << 20, PAINT = 0xa5 };

static unsigned char stack[STACK] __attribute__((aligned(4096)));
static struct day_book book;
static uint32_t out[DAY_OUT_WORDS];
static uint32_t words[DAY_TAPE_WORDS];
static uint32_t quotes[DAY_QUOTES];
static uint32_t refusal;

/* Every issue is in multiples of 100,000 yen. */
static void make_marks(void)
{
    for (uint32_t issue = 0; issue < DAY_ISSUES; issue++) {
        refusal |= day_book_mark(&book, issue, 1).refusal;
    }
}

/* In every issue account 0 buys from all others. */
static void make_trades(void)
{
    for (uint32_t issue = 0; issue < DAY_ISSUES; issue++) {
        for (uint32_t other = 1; other < DAY_ACCOUNTS; other++) {
            refusal |= day_book_trade(&book, issue, other, 0, 998 + 2 * other).refusal;
        }
    }
}

/* The next day account 0 sells three units to each of the others, to the last half a unit more, and
 * fails, so that it has fails both ways, of units that lifts bring apart. */
static void make_next_trades(void)
{
    for (uint32_t issue = 0; issue < DAY_ISSUES; issue++) {
        for (uint32_t other = 1; other < DAY_ACCOUNTS; other++) {
            refusal |= day_book_trade(&book, issue, 0, other, 300000).refusal;
        }
        refusal |= day_book_trade(&book, issue, 0, DAY_ACCOUNTS - 1, 50000).refusal;
    }
    refusal |= day_book_close(&book).refusal;
}

static void make_sound(void) { refusal |= day_book_sound(&book) != 1; }
static void make_unit(void) { refusal |= day_book_unit(&book, 15, 0).refusal; }
static void make_ask(void) { refusal |= day_book_ask(&book, 15, 189).refusal; }

/* Eight lifts in each issue: the small unit, which the stock covers, then full ones far apart. */
static void make_commits(void)
{
    for (uint32_t issue = 0; issue < DAY_ISSUES; issue++) {
        refusal |= day_book_deliver(&book, issue, 0, 60000, out).refusal;
        for (uint32_t lift = 0; lift < DAY_LIFTS; lift++) {
            struct day_ask_answer asked = day_book_ask(&book, issue, 189 - 13 * lift);
            struct day_answer answer = day_book_commit(&book, asked.ticket, out);
            refusal |= asked.refusal | answer.refusal | (answer.count != (lift == 0));
        }
    }
}

static void make_status(void) { refusal |= day_book_status(&book, 15, 189).refusal; }
static void make_unit_lifted(void) { refusal |= day_book_unit(&book, 15, 188).refusal; }
static void make_lifted(void) { refusal |= day_book_deliver(&book, 15, 0, 450000, out).count != 4; }
static void make_close(void) { refusal |= day_book_close(&book).refusal; }
static void make_deliver(void) { refusal |= day_book_deliver(&book, 15, 62, 500, out).refusal; }
static void make_cutoff(void) { refusal |= day_book_cutoff(&book, out).refusal; }
static void make_resolve(void) { refusal |= day_book_resolve(&book, 15, 62, 400, out).refusal; }
static void make_pair_off(void) { refusal |= day_book_pair_off(&book, 15, 0).count < 63; }
static void make_roll(void) { refusal |= day_book_roll(&book, 12, 10000, quotes).refusal; }

/* A book of its own, on the first day on which full units are dealt in turn. */
static void make_turn(void)
{
    day_book_fresh(&book);
    refusal |= day_book_turn(&book, 2).refusal | day_book_turn(&book, 1).refusal;
    refusal |= day_book_close(&book).refusal | day_book_cutoff(&book, out).refusal;
    refusal |= day_book_roll(&book, 12, 10000, quotes).refusal;
    make_marks();
    make_next_trades();
}

static void make_write(void)
{
    size_t count;
    refusal |= day_write(DAY_ROLL, 1, 300, 0, 0, quotes, DAY_QUOTES, words, DAY_TAPE_WORDS, &count);
}

static void make_read(void)
{
    uint32_t instruction[5];
    size_t count;
    refusal |= day_read(words, DAY_TAPE_WORDS, instruction, &count);
    day_quotes(words, DAY_TAPE_WORDS, quotes);
}

static void make_charge(void)
{
    uint64_t yen;
    refusal |= day_charge(20000000, 190000, 12, 10000, 10000, &yen);
    refusal |= day_value(20000000, 190000, 10000, &yen);
}

/* 256 reports, the worst case of every question and of the allotting. */
static void make_trust(void)
{
    static uint32_t subs[DAY_REPORTS], parties[DAY_REPORTS], draw[DAY_REPORTS];
    static int32_t lots[DAY_REPORTS];
    static uint8_t earlier[DAY_REPORTS];
    for (uint32_t report = 0; report < DAY_REPORTS; report++) {
        subs[report] = report % DAY_SUB_ACCOUNTS;
        parties[report] = report % DAY_ACCOUNTS;
        draw[report] = DAY_REPORTS - 1 - report;
        lots[report] = 1000;
    }
    refusal |= day_trust(subs, DAY_REPORTS, parties, DAY_REPORTS, lots, DAY_REPORTS, earlier,
                         DAY_REPORTS, draw, DAY_REPORTS, 256000, 4, out, DAY_OUT_WORDS);
}

/* 64 participants in rising order of averages, and the most funds. */
static void make_funds(void)
{
    static uint64_t averages[DAY_PARTICIPANTS], bases[DAY_PARTICIPANTS], shares[DAY_PARTICIPANTS];
    for (uint64_t participant = 0; participant < DAY_PARTICIPANTS; participant++) {
        averages[participant] = participant + 1;
    }
    refusal |= day_bases(averages, DAY_PARTICIPANTS, DAY_MOST_AMOUNT, bases);
    refusal |= day_shares(averages, DAY_PARTICIPANTS, bases, DAY_PARTICIPANTS, DAY_MOST_AMOUNT, shares);
    refusal |= day_funds(averages, DAY_PARTICIPANTS, DAY_MOST_AMOUNT, DAY_MOST_AMOUNT, shares);
}

/* All markets of five accounts, and those of them that owe some lots. */
static void make_markets(void)
{
    static int32_t nets[DAY_MARKET_PLACES];
    static const uint32_t delivered[DAY_MARKET_ACCOUNTS] = {1, 0, 2, 0, 0};
    uint32_t count, counts[DAY_MARKET_COUNTS];
    refusal |= day_markets(DAY_MARKET_ACCOUNTS, DAY_MARKET_NET, nets, DAY_MARKET_PLACES, &count);
    refusal |= day_market_fails(DAY_MARKET_ACCOUNTS, DAY_MARKET_NET, delivered, DAY_MARKET_ACCOUNTS, counts);
}

/* A desk whose lots go round at units of 7 lots, from the nets of the lifted day. */
static void make_simulation(void)
{
    static uint32_t settles[DAY_ACCOUNTS], inventories[DAY_INVENTORIES];
    for (uint32_t account = 0; account < DAY_ACCOUNTS; account++) {
        settles[account] = account % DAY_SETTLEMENT_ACCOUNTS;
    }
    for (uint32_t place = 0; place < DAY_INVENTORIES; place++) {
        inventories[place] = 10 + place;
    }
    refusal |= day_book_simulate(&book, settles, inventories, 7).refusal;
}

static uint32_t tape[2 * DAY_ISSUES * DAY_ACCOUNTS + 4];

/* A tape with the trades of a day in all issues and accounts, its close, cutoff and a resolve; its length. */
static size_t day_tape(void)
{
    size_t length = 0;
    for (uint32_t issue = 0; issue < DAY_ISSUES; issue++) {
        for (uint32_t other = 1; other < DAY_ACCOUNTS; other++) {
            tape[length++] = DAY_TRADE << 28 | issue << 24 | other << 18;
            tape[length++] = 8u << 28 | 150000;
        }
    }
    tape[length++] = DAY_CLOSE << 28;
    tape[length++] = DAY_CUTOFF << 28;
    tape[length++] = DAY_RESOLVE << 28 | 62 << 18;
    tape[length++] = 8u << 28 | 400;
    return length;
}

static void make_statement(void)
{
    uint64_t numbers[DAY_STATEMENT_NUMBERS];
    refusal |= day_statement(tape, day_tape(), 0, 62, numbers);
    refusal |= numbers[2] != 150000 || numbers[3] != 400;
}

/* The same tape in one run, on a book of its own. */
static void make_run(void)
{
    static struct day_book other;
    static uint64_t answers[DAY_ANSWER_NUMBERS * (DAY_ISSUES * DAY_ACCOUNTS + 4)];
    static uint32_t records[2 * DAY_OUT_WORDS];
    size_t length = day_tape();
    struct day_ran ran = day_book_run(&other, tape, length, answers, sizeof answers / sizeof *answers,
                                      records, 2 * DAY_OUT_WORDS);
    refusal |= ran.refusal;
    refusal |= ran.used != length;
    for (size_t number = 0; number < ran.answered; number++) {
        refusal |= answers[DAY_ANSWER_NUMBERS * number] != DAY_DONE;
    }
}

static void make_nothing(void) {}

struct measured {
    const char *name;
    void (*make)(void);
};

/* In the order in which a day makes them; the first is what a thread uses by itself. */
static const struct measured measures[] = {
    {"nothing", make_nothing},    {"mark", make_marks},            {"trade", make_trades},
    {"unit", make_unit},          {"close", make_close},           {"deliver", make_deliver},
    {"sound", make_sound},        {"cutoff", make_cutoff},         {"resolve", make_resolve},
    {"roll", make_roll},          {"a day", make_next_trades},     {"ask", make_ask},
    {"commit", make_commits},
    {"unit, lifted", make_unit_lifted},  {"status, lifted", make_status},
    {"deliver, lifted", make_lifted},    {"sound, lifted", make_sound},
    {"cutoff, lifted", make_cutoff},     {"status, cut", make_status},
    {"pair-off", make_pair_off},  {"write", make_write},           {"read", make_read},
    {"value and charge", make_charge},   {"trust", make_trust},
    {"turn", make_turn},          {"ask, dealt", make_ask},        {"commit, dealt", make_commits},
    {"unit, dealt", make_unit_lifted},   {"status, dealt", make_status},
    {"deliver, dealt", make_lifted},     {"sound, dealt", make_sound},
    {"cutoff, dealt", make_cutoff},      {"status, dealt", make_status},
    {"funds", make_funds},        {"markets", make_markets},
    {"simulated desk", make_simulation}, {"statement", make_statement},
    {"run", make_run},
};

static void *run(void *make)
{
    ((const struct measured *)make)->make();
    return NULL;
}

/* The bytes of the painted stack that a run on it changed, from the deepest on; 0 where it failed. */
static size_t used(const struct measured *measured)
{
    pthread_attr_t attributes;
    pthread_t thread;
    size_t at = 0;
    memset(stack, PAINT, STACK);
    if (pthread_attr_init(&attributes) != 0 ||
        pthread_attr_setstack(&attributes, stack, STACK) != 0 ||
        pthread_create(&thread, &attributes, run, (void *)measured) != 0 ||
        pthread_join(thread, NULL) != 0) {
        return 0;
    }
    while (at < STACK && stack[at] == PAINT) {
        at++;
    }
    return STACK - at;
}

int main(void)
{
    int good = 1;
    size_t thread_alone = used(&measures[0]);
    for (size_t issue = 0; issue < DAY_ISSUES; issue++) {
        quotes[issue] = 99999;
        quotes[DAY_ISSUES + issue] = 9999;
    }
    day_book_fresh(&book);
    for (size_t i = 1; i < sizeof measures / sizeof measures[0]; i++) {
        size_t all = used(&measures[i]);
        size_t bytes = all > thread_alone ? all - thread_alone : 0;
        size_t most = measures[i].make == make_statement ? DAY_STATEMENT_STACK_BYTES : DAY_STACK_BYTES;
        int within = thread_alone != 0 && all != 0 && bytes <= most;
        printf("%-16s %zu bytes of stack%s\n", measures[i].name, bytes, within ? "" : ": too many");
        good = good && within;
    }
    if (refusal != 0) {
        puts("a call was refused, so it did not go its whole way");
    }
    return good && refusal == 0 ? 0 : 1;
}
