/* day: the settled day P5 to P9 run through the library, as a host in C runs its book. Prints the
 * units in their order, each delivery with what was handed over, a refused delivery, why units have
 * not come, a lift of unit 7 on a copy of the book with the cutoff that follows from it, then the fails
 * of the day's own cutoff and the charges of the roll, and the same day from its tape; then, in a book
 * of its own, an issue in multiples of 100,000 yen; last, in another, the same market on the first day on
 * which full units are dealt in turn. */
#include <inttypes.h>
#include <stdio.h>

#include "settlement_day.h"

enum status { DONE = 0, NOT_AS_EXPECTED = 1, NOT_WRITTEN = 3 };

static const uint32_t ISSUE = 0;

/* The books and the output are static. */
static struct day_book book;
static struct day_book lifted;
static struct day_book marked;
static struct day_book dealt;
static uint32_t out[DAY_OUT_WORDS];

/* Tells a call that was not done. */
static int done(const char *call, struct day_answer answer)
{
    if (answer.refusal == DAY_DONE) {
        return 1;
    }
    fprintf(stderr, "day: %s is refused by %" PRIu32 ": %s\n", call, answer.refusal,
            day_refusal_text(answer.refusal));
    return 0;
}

/* Tells a call that is refused as it must be; nothing is changed then. */
static int refused(const char *call, struct day_answer answer, uint32_t by)
{
    printf("%s: refused by %" PRIu32 ", %s\n", call, answer.refusal,
           day_refusal_text(answer.refusal));
    return answer.refusal == by && answer.count == 0;
}

/* P5: the trades that make the nets. */
static int take_trades(struct day_book *of)
{
    return done("trade", day_book_trade(of, ISSUE, 4, 1, 230000)) &&
           done("trade", day_book_trade(of, ISSUE, 5, 2, 250000)) &&
           done("trade", day_book_trade(of, ISSUE, 5, 3, 150000)) &&
           done("close", day_book_close(of));
}

/* P5: the units of the issue in their order. */
static int show_units(const struct day_book *of)
{
    for (uint32_t k = 0;; k++) {
        struct day_unit_answer unit = day_book_unit(of, ISSUE, k);
        if (unit.refusal != DAY_DONE) {
            return 0;
        }
        if (!unit.found) {
            return 1;
        }
        printf("unit %" PRIu32 ": account %" PRIu32 ", %" PRIu32 " lots\n", k, unit.account,
               unit.lots);
    }
}

/* The records that the last call wrote. */
static void show_records(size_t count)
{
    for (size_t at = 0; at < count; at++) {
        struct day_record record = day_record_at(out, at);
        if (record.kind == DAY_FAIL) {
            printf("  account %" PRIu32 " fails account %" PRIu32 ": %" PRIu32 " lots\n",
                   record.from, record.to, record.lots);
        } else {
            printf("  handed to account %" PRIu32 ": %" PRIu32 " lots\n", record.to, record.lots);
        }
    }
}

/* P6, P7: a delivery and what it hands over. */
static int deliver(struct day_book *of, uint32_t account, uint32_t lots)
{
    struct day_answer answer = day_book_deliver(of, ISSUE, account, lots, out);
    if (!done("deliver", answer)) {
        return 0;
    }
    printf("account %" PRIu32 " delivers %" PRIu32 " lots: %zu units\n", account, lots,
           answer.count);
    show_records(answer.count);
    return 1;
}

/* A delivery of more than is owed. */
static int deliver_too_much(void)
{
    struct day_answer answer = day_book_deliver(&book, ISSUE, 5, 55001, out);
    return refused("account 5 delivers 55001 lots", answer, DAY_REFUSED_OWED);
}

/* Why a unit has not come, as the desk tells it to a receiver. */
static int tell(uint32_t k)
{
    struct day_status_answer told = day_book_status(&book, ISSUE, k);
    printf("why unit %" PRIu32 " has not come: ", k);
    switch (told.status) {
    case DAY_HANDED: printf("it is handed\n"); break;
    case DAY_WAITING: printf("it waits for %" PRIu32 " lots\n", told.lots); break;
    case DAY_PARTLY_FAILED: printf("partly failed, %" PRIu32 " lots lacking\n", told.lots); break;
    case DAY_WHOLLY_FAILED: printf("wholly failed\n"); break;
    default:
        printf("refused by %" PRIu32 "\n", told.refusal);
        return told.refusal == DAY_REFUSED_UNIT && told.lots == 0;
    }
    return told.refusal == DAY_DONE;
}

/* P8: the cutoff, its partial handover and its fails. */
static int cut(struct day_book *of)
{
    struct day_answer answer = day_book_cutoff(of, out);
    if (!done("cutoff", answer)) {
        return 0;
    }
    printf("cutoff: %zu records\n", answer.count);
    show_records(answer.count);
    return 1;
}

/* Asks for a lift of a unit and prints the ticket. */
static int ask(uint32_t unit, struct day_ticket *ticket)
{
    struct day_ask_answer asked = day_book_ask(&book, ISSUE, unit);
    *ticket = asked.ticket;
    printf("ask for unit %" PRIu32 ": account %" PRIu32 ", %" PRIu32 " lots, day %" PRIu32
           ", count %" PRIu32 "\n",
           ticket->unit, ticket->account, ticket->lots, ticket->day, ticket->count);
    return asked.refusal == DAY_DONE;
}

/* The same ticket again: the count has risen, so it is refused. */
static int commit_again(struct day_ticket ticket)
{
    struct day_answer answer = day_book_commit(&lifted, ticket, out);
    return refused("the same ticket again", answer, DAY_REFUSED_TICKET);
}

/* On a copy of the book, parties that wait for each other: unit 7 is settled first, then the cutoff. */
static int lift(void)
{
    struct day_ticket ticket;
    if (!ask(7, &ticket)) {
        return 0;
    }
    lifted = book;
    struct day_answer answer = day_book_commit(&lifted, ticket, out);
    if (!done("commit", answer)) {
        return 0;
    }
    printf("commit, on a copy of the book:\n");
    show_records(answer.count);
    printf("%" PRIu32 " lift: from place %" PRIu32 " to place %" PRIu32 "\n",
           lifted.lifts[DAY_LIFT_PLACE(ISSUE, 0)], lifted.lifts[DAY_LIFT_PLACE(ISSUE, 2)],
           lifted.lifts[DAY_LIFT_PLACE(ISSUE, 3)]);
    int as_expected = commit_again(ticket) && cut(&lifted) && day_book_sound(&lifted) == 1;
    printf("the day itself, with nothing lifted:\n");
    return as_expected;
}

/* The charge on each entry of the ledger, as the roll lays it. */
static int show_charges_on_entries(uint32_t days, uint32_t rate, uint32_t price,
                                   uint32_t accrued)
{
    for (size_t at = 0; at < book.state.entries; at++) {
        uint64_t yen = 0;
        if (day_charge(book.lots[at], price, days, rate, accrued, &yen) != DAY_DONE) {
            return 0;
        }
        printf("account %d owes account %d %" PRIu32 " lots since day %d: %" PRIu64 " yen\n",
               book.froms[at], book.tos[at], book.lots[at], book.days[at], yen);
    }
    return 1;
}

/* P9: the roll, and the charges of the accounts. */
static int roll(uint32_t days, uint32_t rate, uint32_t price, uint32_t accrued)
{
    uint32_t quotes[DAY_QUOTES];
    for (size_t issue = 0; issue < DAY_ISSUES; issue++) {
        quotes[issue] = price;
        quotes[DAY_ISSUES + issue] = accrued;
    }
    if (!show_charges_on_entries(days, rate, price, accrued) ||
        !done("roll", day_book_roll(&book, days, rate, quotes))) {
        return 0;
    }
    printf("day %d, phase %" PRIu32 "\n", book.state.day, book.state.phase);
    for (size_t account = 0; account < DAY_ACCOUNTS; account++) {
        if (book.charges[account] != 0) {
            printf("account %zu: %" PRId64 " yen\n", account, book.charges[account]);
        }
    }
    return day_book_sound(&book) == 1;
}

/* Writes an instruction behind those that are there; how many words there are then, 0 where it is refused. */
static size_t put(uint32_t *words, size_t length, uint32_t kind, uint32_t a, uint32_t b, uint32_t c,
                  uint32_t d)
{
    uint32_t quotes[DAY_QUOTES] = {0};
    size_t count = 0;
    for (size_t issue = 0; issue < DAY_ISSUES; issue++) {
        quotes[issue] = 100000;
    }
    uint32_t refusal = day_write(kind, a, b, c, d, quotes, DAY_QUOTES, words + length, DAY_TAPE_WORDS, &count);
    return refusal == DAY_DONE ? length + count : 0;
}

/* The same day from its tape, two instructions a run: each is told as its own call was, and the book is the same. */
static int run_at_once(void)
{
    static struct day_book again;
    static uint32_t words[9 * DAY_TAPE_WORDS];
    static uint32_t records[2 * DAY_OUT_WORDS];
    uint64_t answers[2 * DAY_ANSWER_NUMBERS];
    size_t length = 0, used = 0;
    length = put(words, length, DAY_TRADE, ISSUE, 4, 1, 230000);
    length = put(words, length, DAY_TRADE, ISSUE, 5, 2, 250000);
    length = put(words, length, DAY_TRADE, ISSUE, 5, 3, 150000);
    length = put(words, length, DAY_CLOSE, 0, 0, 0, 0);
    length = put(words, length, DAY_DELIVER, ISSUE, 5, 345000, 0);
    length = put(words, length, DAY_DELIVER, ISSUE, 4, 200000, 0);
    length = put(words, length, DAY_DELIVER, ISSUE, 5, 55001, 0);
    length = put(words, length, DAY_CUTOFF, 0, 0, 0, 0);
    length = put(words, length, DAY_ROLL, 1, 300, 0, 0);
    day_book_fresh(&again);
    puts("the same day from its tape, two instructions a run:");
    while (used < length) {
        struct day_ran ran = day_book_run(&again, words + used, length - used, answers,
                                          2 * DAY_ANSWER_NUMBERS, records, 2 * DAY_OUT_WORDS);
        for (size_t at = 0; at < ran.answered; at++) {
            printf("  refusal %" PRIu64 ", count %" PRIu64 ", cancelled %" PRIu64 "\n", answers[3 * at],
                   answers[3 * at + 1], answers[3 * at + 2]);
        }
        printf("  %zu words used, %zu written\n", ran.used, ran.written);
        if (ran.refusal != DAY_DONE || ran.answered == 0) {
            return 0;
        }
        used += ran.used;
    }
    return length != 0 && again.state.day == book.state.day && again.state.entries == book.state.entries &&
           memcmp(again.nets, book.nets, sizeof book.nets) == 0 &&
           memcmp(again.charges, book.charges, sizeof book.charges) == 0 &&
           memcmp(again.lots, book.lots, sizeof book.lots) == 0;
}

/* A marked issue takes even lots only, and keeps its mark while it has a net. */
static int mark(uint32_t issue)
{
    day_book_fresh(&marked);
    if (!done("mark", day_book_mark(&marked, issue, 1))) {
        return 0;
    }
    printf("in a book of its own, issue %" PRIu32 " in multiples of 100,000 yen:\n", issue);
    return refused("a trade of 129999 lots", day_book_trade(&marked, issue, 4, 1, 129999),
                   DAY_REFUSED_ODD) &&
           done("trade", day_book_trade(&marked, issue, 4, 1, 130000)) &&
           refused("the mark taken away", day_book_mark(&marked, issue, 0), DAY_REFUSED_IN_USE) &&
           marked.state.marks[issue] == 1 && day_book_sound(&marked) == 1;
}

/* The change-over: named on day 0 for day 5, then for day 1 instead; on day 1 the units of P5 are dealt
 * in turn, and no other day can be named any more. */
static int change_over(void)
{
    uint32_t quotes[DAY_QUOTES] = {0};
    for (size_t issue = 0; issue < DAY_ISSUES; issue++) {
        quotes[issue] = 100000;
    }
    day_book_fresh(&dealt);
    if (!done("turn", day_book_turn(&dealt, 5)) || !done("turn", day_book_turn(&dealt, 1)) ||
        !done("close", day_book_close(&dealt)) || !done("cutoff", day_book_cutoff(&dealt, out)) ||
        !done("roll", day_book_roll(&dealt, 1, 300, quotes)) || !take_trades(&dealt)) {
        return 0;
    }
    printf("in another book, full units dealt in turn from day %" PRIu32 " on:\n", dealt.state.turn);
    return show_units(&dealt) && deliver(&dealt, 5, 150000) && cut(&dealt) &&
           refused("another day for it", day_book_turn(&dealt, 2), DAY_REFUSED_CHANGE_OVER) &&
           dealt.state.turn == 1 && day_book_sound(&dealt) == 1;
}

/* What participant 0 sees of account 5, which is its own. */
static int look(struct day_caller caller)
{
    struct day_seen seen = day_book_look(caller, &book, ISSUE, 5, 0);
    if (seen.refusal != DAY_DONE) {
        return 0;
    }
    printf("account 5: net %" PRId32 ", charge %" PRId64 " yen\n", seen.net, seen.charge);
    for (uint32_t k = 0; seen.some == 1; k++) {
        printf("  entry %" PRIu32 ": account %d fails account %d %" PRIu32 " lots since day %d\n", k,
               seen.entry.from, seen.entry.to, seen.entry.lots, seen.entry.day);
        seen = day_book_look(caller, &book, ISSUE, 5, k + 1);
    }
    return seen.refusal == DAY_DONE;
}

/* A login: participant 0 reads and resolves for its own account, and for no other; closing the book is the
 * operator's. */
static int login(void)
{
    struct day_caller caller;
    struct day_answer other = {0, 0, 0};
    caller.number = 0;
    memset(caller.owners, DAY_NOBODY, sizeof caller.owners);
    caller.owners[5] = 0;
    printf("participant 0, whose account is 5:\n");
    other.refusal = day_book_look(caller, &book, ISSUE, 2, 0).refusal;
    return look(caller) && refused("account 2", other, DAY_REFUSED_RIGHT) &&
           refused("a close", day_book_call_as(caller, &book, DAY_CLOSE, 0, 0, 0, 0, out, 0, out, 0),
                   DAY_REFUSED_RIGHT) &&
           done("resolve", day_book_resolve_as(caller, &book, ISSUE, 5, 30000, out)) &&
           look(caller) && day_book_sound(&book) == 1;
}

int main(void)
{
    day_book_fresh(&book);
    int as_expected = take_trades(&book) && show_units(&book) && deliver(&book, 5, 345000) &&
                      tell(2) && tell(3) && deliver(&book, 4, 200000) && deliver_too_much() &&
                      lift() && cut(&book) && tell(5) && tell(6) && tell(8) &&
                      roll(1, 300, 100000, 0) && run_at_once() && mark(1) && change_over() && login();
    if (fflush(stdout) != 0 || ferror(stdout)) {
        perror("day: the lines could not be written");
        return NOT_WRITTEN;
    }
    return as_expected ? DONE : NOT_AS_EXPECTED;
}
