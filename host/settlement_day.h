/* The settlement-day book for hosts in C and C++.
 *
 * The functions are in one library, libsettlement_day, as an archive (.a) and as a shared library
 * (.so); `make libraries` makes both, `make install` installs them with this header, and
 * `pkg-config --cflags --libs settlement-day` says how to compile and link. By the crate that they are
 * proved in:
 *
 *     batch     day_run
 *     host      day_sound day_unit day_status day_simulate day_call day_ask day_commit
 *     callers   all but day_sound with a caller (day_unit_as, ..), and day_look
 *     desk      day_value day_charge day_read day_quotes day_write
 *     entries   entry_meet
 *     funds     day_bases day_shares day_funds
 *     journal   day_journal_call day_journal_commit day_journal_read
 *     listing   day_markets day_market_fails
 *     snapshot  day_save day_open
 *     statement day_statement
 *     trust     day_trust
 *     (in C)    day_version
 *
 * Each is proved to answer as the rules say for every number and every book, damaged ones too.
 * What the host has to see to: a pointer is valid for the length given beside it, also where the
 * length is 0 (give the address of anything, not a null pointer), and of the memory that a function
 * may write nothing overlaps. The structs and helpers at the end see to that by themselves.
 *
 * Nothing is allocated, printed or kept between calls: calls on different books can be made at the
 * same time. A call needs at most DAY_STACK_BYTES of stack, day_statement, which has a book of its own,
 * DAY_STATEMENT_STACK_BYTES; more than a small thread may have, so
 * look at the stacks of your threads (host/stack.c measures it). */
#ifndef SETTLEMENT_DAY_H
#define SETTLEMENT_DAY_H

#include <stddef.h>
#include <stdint.h>
#include <string.h>

#ifdef __cplusplus
extern "C" {
#endif

/* ---- version
 *
 * This is the header's; day_version() gives the library's. As long as MAJOR is the same:
 *
 * - a function keeps its name, its numbers and their order, and what it gives; a struct its fields and
 *   their layout; a constant its number, but for the DAY_*_STACK_BYTES, which may fall;
 * - a call that could be made before is refused by no number that it could not be refused by before;
 * - what is added (functions, kinds, refusals) raises MINOR; PATCH rises where nothing is added.
 *
 * So a program that was compiled with this header runs with every library of the same MAJOR and of this
 * MINOR or a higher one; day_version_fits() tells whether the one at hand is such. The helpers that are
 * `static inline` are compiled into the program, and struct day_book is the program's own: no function of
 * the library takes it whole. Nothing is promised from one MAJOR to the next. */

#define DAY_VERSION_MAJOR 1u
#define DAY_VERSION_MINOR 1u
#define DAY_VERSION_PATCH 0u

/* A version as one number, by which versions are compared: 1.2.3 is 1002003. */
#define DAY_VERSION_NUMBER(major, minor, patch) ((major) * 1000000u + (minor) * 1000u + (patch))
#define DAY_VERSION DAY_VERSION_NUMBER(DAY_VERSION_MAJOR, DAY_VERSION_MINOR, DAY_VERSION_PATCH)

/* The compiler warns where what such a function answers is not looked at: a refusal would be missed. To
 * leave an answer out on purpose, put it into a variable first. */
#if defined(__cplusplus) && __cplusplus >= 201703L
#define DAY_NODISCARD [[nodiscard]]
#elif !defined(__cplusplus) && defined(__STDC_VERSION__) && __STDC_VERSION__ >= 202311L
#define DAY_NODISCARD [[nodiscard]]
#elif defined(__GNUC__)
#define DAY_NODISCARD __attribute__((warn_unused_result))
#else
#define DAY_NODISCARD
#endif

/* The library's version, as DAY_VERSION has the header's. */
uint32_t day_version(void);

/* 1 where the library at hand is one that this header is for, else 0. */
DAY_NODISCARD
static inline uint32_t day_version_fits(void)
{
    uint32_t found = day_version();
    return found / 1000000u == DAY_VERSION_MAJOR && found / 1000u >= DAY_VERSION / 1000u;
}

/* ---- sizes */

#define DAY_ISSUES 16u      /* issues 0 to 15 */
#define DAY_QUOTES 32u      /* of a roll: a price for each issue, then an accrued amount for each */
#define DAY_ACCOUNTS 64u    /* netting accounts 0 to 63 */
#define DAY_PLACES 1024u    /* nets and delivered lots: issue i and account a stand at i * 64 + a */
#define DAY_LIFTS 8u        /* the most lifts that stand for an issue */
#define DAY_LIFT_WORDS 18u  /* of an issue: number of lifts, count, eight times old and new place */
#define DAY_LIFT_PLACES 288u /* lifts: word w of issue i stands at i * 18 + w */
#define DAY_ENTRIES 2048u   /* the most fail entries of the ledger */
#define DAY_OUT_WORDS 4096u /* an output of deliver, commit, cutoff, resolve has at least so many words */
#define DAY_ANSWER_NUMBERS 3u /* that day_run tells of an instruction: refusal, count, lots cancelled */
#define DAY_TAPE_WORDS 33u  /* the output of day_write has at least so many words */
#define DAY_RECORD_WORDS 36u /* a record of the journal has so many words */
#define DAY_REPORTS 256u    /* the most trade reports, and the places of the output of day_trust */
#define DAY_SUB_ACCOUNTS 32u /* sub-accounts 0 to 31 */
#define DAY_SETTLEMENT_ACCOUNTS 16u /* of a simulated desk: settlement accounts 0 to 15 */
#define DAY_INVENTORIES 256u /* issue i in settlement account s stands at i * 16 + s */
#define DAY_PARTICIPANTS 64u /* the most participants, and the places of an output of funds */
#define DAY_SPAN 4096u /* a fails statement is of a tape's first so many instructions, or fewer */
#define DAY_STATEMENT_NUMBERS 6u /* the places of an answer of day_statement */
#define DAY_MARKET_ACCOUNTS 5u /* the most accounts of a small market */
#define DAY_MARKET_NET 4u /* the most lots of a net of a small market, to either side */
#define DAY_MARKET_PLACES 19755u /* the output of day_markets has at least so many places */
#define DAY_MARKET_COUNTS 5u /* markets with 0, 1, 2, 3, 4 fail entries */
#define DAY_STACK_BYTES 32768u /* the most stack that a call needs; measured: 24,856 */
#define DAY_STATEMENT_STACK_BYTES 131072u /* and the most that day_statement needs; measured: 49,360 */

/* The place of an issue and an account, both in range, in nets and delivered lots. */
#define DAY_PLACE(issue, account) ((size_t)(issue) * DAY_ACCOUNTS + (size_t)(account))

/* The place of an issue's word of lifts, both in range: word 0 is the number of lifts, 1 the count of
 * the day's accepted deliveries and lifts, 2 and 3 the first lift's old and new place, and so on. */
#define DAY_LIFT_PLACE(issue, word) ((size_t)(issue) * DAY_LIFT_WORDS + (size_t)(word))

/* ---- numbers of the rules */

#define DAY_MOST_LOTS 20000000u /* of a trade, a delivery, a fail entry; of a net to either side */
#define DAY_UNIT_LOTS 100000u   /* a full unit; a lot is 50,000 yen face */
#define DAY_MOST_PRICE 200000u  /* prices are thousandths of a yen per 100 yen face, from 1 */
#define DAY_MOST_ACCRUED 10000u /* accrued amounts, from 0; with the price at most DAY_MOST_PRICE */
#define DAY_MOST_DAYS 12u       /* days of a roll, from 1 */
#define DAY_MOST_RATE 10000u    /* rates are hundredths of a percent a year, from 0 */
#define DAY_LAST_DAY 65535u     /* the last day, which does not roll */
#define DAY_MOST_AMOUNT 1000000u /* an average, a factor in tenths, funds, in 100 million yen */

/* ---- phases of the day; any other number is a damaged book */

#define DAY_TAKING 0u   /* trades are taken */
#define DAY_SETTLING 1u /* lots are delivered and handed over */
#define DAY_CUT 2u      /* what did not come is failed; the day can roll */

/* ---- kinds of instructions, with their numbers a, b, c, d (0 where there is none) */

#define DAY_TRADE 1u    /* issue, from, to, lots: from's net falls, to's rises; in Taking */
#define DAY_DELIVER 2u  /* issue, account, lots: units are handed over in order; in Settling */
#define DAY_RESOLVE 3u  /* issue, account, lots: the account's fails are met; any phase */
#define DAY_PAIR_OFF 4u /* issue, account: fails to it and from it cancel; any phase */
#define DAY_CLOSE 5u    /* Taking to Settling */
#define DAY_CUTOFF 6u   /* what has not come is failed; Settling to Cut */
#define DAY_ROLL 7u     /* days, rate (quotes beside it): fails are charged; Cut to the next Taking */
#define DAY_MARK 13u    /* issue, mark: it takes even lots only (0: any lots); any phase */
#define DAY_TURN 14u    /* day: from it on full units are dealt in turn; any phase */

/* ---- kinds of the records in an output; each record is two words (day_record_at reads one) */

#define DAY_HANDOVER 10u /* the house hands lots to an account; from is unused */
#define DAY_RESOLVED 11u /* from hands lots to an account in a resolve */
#define DAY_FAIL 12u     /* from fails an account */

/* ---- refusals: the number of the first question answered 'no'; nothing is changed then */

#define DAY_DONE 0u
#define DAY_REFUSED_OUTPUT 1u   /* the output has fewer than 4,096 words (writer: 33, trust: 256,
                                 * markets: 19,755 places), or the answers of a run fewer than 3 places */
#define DAY_REFUSED_BOOK 2u     /* the book is not sound, or a column has another length */
#define DAY_REFUSED_PHASE 3u    /* the call belongs to another phase */
#define DAY_REFUSED_ISSUE 4u    /* the issue is above 15 */
#define DAY_REFUSED_ACCOUNT 5u  /* an account is above 63, a settlement account above 15 */
#define DAY_REFUSED_SAME 6u     /* from and to are the same account */
#define DAY_REFUSED_LOTS 7u     /* lots are not 1 to 20,000,000 (a report's: within ±20,000,000; a
                                 * simulated desk's: unit size 1 to 100,000, inventories to 20,000,000;
                                 * markets: more than 5 accounts, a net above 4, or a list of delivered
                                 * lots of another length) */
#define DAY_REFUSED_NET 8u      /* a net would pass 20,000,000 lots to one side */
#define DAY_REFUSED_OWED 9u     /* the account does not owe that many lots */
#define DAY_REFUSED_ROOM 10u    /* the ledger would have more than 2,048 entries */
#define DAY_REFUSED_TERMS 11u   /* price, accrued, days or rate out of range, or quotes are not 32 */
#define DAY_REFUSED_LAST 12u    /* the day is 65,535 */
#define DAY_REFUSED_TAPE 13u    /* the tape ends before the instruction does */
#define DAY_REFUSED_WORD 14u    /* a kind or unused bits are wrong (day_call: before 1 and 2) */
#define DAY_REFUSED_BITS 15u    /* a number does not fit its bits (writer) */
#define DAY_REFUSED_UNIT 16u    /* there is no such unit, or (ask, commit) it is handed already */
#define DAY_REFUSED_TICKET 17u  /* account, lots, day or count is not what asking now gives */
#define DAY_REFUSED_LIFTS 18u   /* eight lifts stand for the issue */
#define DAY_REFUSED_ODD 19u     /* lots are odd in a marked issue (trade, deliver, resolve) */
#define DAY_REFUSED_IN_USE 20u  /* the issue has a net or an entry, so its mark stays (mark) */
#define DAY_REFUSED_DRAW 21u    /* the list is not each report number just once; a column's length */
#define DAY_REFUSED_REPORTS 22u /* more than 256 reports, or a sub-account above 31 */
#define DAY_REFUSED_ELIGIBLE 23u /* the fail is larger than the eligible lots */
#define DAY_REFUSED_PARTICIPANTS 24u /* more than 64 participants, columns of unequal length, or an
                                      * average, factor or funds above 1,000,000 */
#define DAY_REFUSED_BASES 25u   /* the funds are above all bases together */

#define DAY_REFUSED_CHANGE_OVER 26u /* the day is not after today, or the new order is in force (turn) */
#define DAY_REFUSED_RIGHT 27u   /* the caller has not the right: the account is not its own, or the call
                                 * is the operator's */

/* ---- the journal: kind of a commit's record, and reasons, which are no refusals of the rules */

#define DAY_COMMIT 15u          /* the ticket's six numbers; the tape's reader refuses the kind */
#define DAY_JOURNAL_DONE 0u     /* the record is written, or is read */
#define DAY_JOURNAL_OUTPUT 1u   /* writing: the output has fewer than 36 words */
#define DAY_JOURNAL_NUMBER 4u   /* writing: the kind is none, or a number does not fit its bits */
#define DAY_JOURNAL_NONE 1u     /* reading: no word is left */
#define DAY_JOURNAL_TORN 2u     /* reading: the record is not whole or wrong, and nothing stands behind it */
#define DAY_JOURNAL_DAMAGED 3u  /* reading: the record is wrong, and something stands behind it */

/* ---- callers and owners */

#define DAY_OPERATOR 16u /* the caller that may make every call; 0 to 15 are participants */
#define DAY_NOBODY 255u  /* an owner number that names nobody, as every number above 15 */

/* ---- why a unit has not come: the cases of day_status */

#define DAY_STATUS_NONE 0u    /* it is refused */
#define DAY_HANDED 1u         /* the unit is handed */
#define DAY_WAITING 2u        /* with so many more lots, and no lift between, it is handed; Settling */
#define DAY_PARTLY_FAILED 3u  /* it lacked so many lots at the cutoff; Cut */
#define DAY_WHOLLY_FAILED 4u  /* it lacked all its lots at the cutoff; Cut */

/* ---- the libraries' functions
 *
 * A book goes in as its state, a struct by value, and nine columns; day_call gives the state after it
 * back by value too. A column, the quotes, the words and an output are a pointer and a length in this
 * order: nets and delivered 1,024 each, lifts 288, charges 64, the ledger's five columns 2,048 each. A
 * column of another length is a damaged book. The number returned, but for day_sound's, is the
 * refusal's, 0 where it is done. */

/* What of a book stands beside its columns. */
struct day_state {
    uint16_t day;
    uint32_t phase;   /* above 2 it is no phase, and the book damaged */
    size_t entries;   /* of the ledger's columns, so many are used */
    uint32_t turn;    /* the first day on which full units are dealt in turn; 0: none is named */
    uint8_t marks[DAY_ISSUES]; /* 0: the issue takes any lots; else even lots only. Stored: 1 or 0 */
};

/* What a call gives: number, count, pair-off's lots, and the state after it. */
struct day_turned {
    uint32_t refusal; /* 0 where it is done */
    size_t count;
    uint64_t cancelled;
    struct day_state state;
};

/* 1 where the book is sound, else 0. */
DAY_NODISCARD
uint32_t day_sound(struct day_state state,
                   const int32_t *nets, size_t nets_length,
                   const uint32_t *delivered, size_t delivered_length,
                   const uint32_t *lifts, size_t lifts_length,
                   const int64_t *charges, size_t charges_length,
                   const uint8_t *issues, size_t issues_length,
                   const uint8_t *froms, size_t froms_length,
                   const uint8_t *tos, size_t tos_length,
                   const uint32_t *lots, size_t lots_length,
                   const uint16_t *days, size_t days_length);

/* The k-th unit of an issue, k from 0: 1, account, lots; or 0, 0, 0 where there is none. */
DAY_NODISCARD
uint32_t day_unit(struct day_state state,
                  const int32_t *nets, size_t nets_length,
                  const uint32_t *delivered, size_t delivered_length,
                  const uint32_t *lifts, size_t lifts_length,
                  const int64_t *charges, size_t charges_length,
                  const uint8_t *issues, size_t issues_length,
                  const uint8_t *froms, size_t froms_length,
                  const uint8_t *tos, size_t tos_length,
                  const uint32_t *lots, size_t lots_length,
                  const uint16_t *days, size_t days_length,
                  uint32_t issue, uint32_t k, uint32_t answer[3]);

/* Why the k-th unit of an issue, k from 0, has not come, in Settling and in Cut: the case and its lots
 * (0 where it is handed or wholly failed); twice 0 on a refusal (2, 3 in Taking, 4, 16). */
DAY_NODISCARD
uint32_t day_status(struct day_state state,
                    const int32_t *nets, size_t nets_length,
                    const uint32_t *delivered, size_t delivered_length,
                    const uint32_t *lifts, size_t lifts_length,
                    const int64_t *charges, size_t charges_length,
                    const uint8_t *issues, size_t issues_length,
                    const uint8_t *froms, size_t froms_length,
                    const uint8_t *tos, size_t tos_length,
                    const uint32_t *lots, size_t lots_length,
                    const uint16_t *days, size_t days_length,
                    uint32_t issue, uint32_t k, uint32_t answer[2]);

/* Tries a unit size on a simulated desk, in any phase: the book's nets alone count, and nothing of it
 * changes. settles has the settlement account (0 to 15) of each netting account, inventories the lots
 * of each issue in each settlement account (at most 20,000,000), size the lots of a unit (1 to
 * 100,000). In turn, by account and then issue, each account delivers the smaller of that inventory
 * and what it still owes; what an account is handed joins its settlement account at once. It ends with
 * the first round without a delivery, which is counted. deliveries, rounds and the lots still owed of
 * each issue are all 0 on a refusal (2; 5, also for other than 64 settlement accounts; 7, also for
 * other than 256 inventories). */
DAY_NODISCARD
uint32_t day_simulate(struct day_state state,
                      const int32_t *nets, size_t nets_length,
                      const uint32_t *delivered, size_t delivered_length,
                      const uint32_t *lifts, size_t lifts_length,
                      const int64_t *charges, size_t charges_length,
                      const uint8_t *issues, size_t issues_length,
                      const uint8_t *froms, size_t froms_length,
                      const uint8_t *tos, size_t tos_length,
                      const uint32_t *lots, size_t lots_length,
                      const uint16_t *days, size_t days_length,
                      const uint32_t *settles, size_t settles_length,
                      const uint32_t *inventories, size_t inventories_length, uint32_t size,
                      uint64_t *deliveries, uint64_t *rounds, uint32_t owed[16]);

/* The call of an instruction, made in place on any book. A kind that is none of 1..7, 13, 14 is refused by
 * 14 before anything else is asked, the output (1) and the book (2) too. Only deliver, cutoff and
 * resolve use the output, and only roll the quotes. count is that of the records written (for pair-off,
 * of the steps), cancelled pair-off's lots; both are 0 on a refusal, and the state is as it came. */
DAY_NODISCARD
struct day_turned day_call(uint32_t kind, uint32_t a, uint32_t b, uint32_t c, uint32_t d,
                           const uint32_t *quotes, size_t quotes_length,
                           struct day_state state,
                           int32_t *nets, size_t nets_length,
                           uint32_t *delivered, size_t delivered_length,
                           uint32_t *lifts, size_t lifts_length,
                           int64_t *charges, size_t charges_length,
                           uint8_t *issues, size_t issues_length,
                           uint8_t *froms, size_t froms_length,
                           uint8_t *tos, size_t tos_length,
                           uint32_t *lots, size_t lots_length,
                           uint16_t *days, size_t days_length,
                           uint32_t *out, size_t out_length);

/* What a run gives. */
struct day_ran {
    uint32_t refusal; /* 1, 2: nothing is changed; 13, 14: the reader's, of the words from `used` on; else 0 */
    size_t answered;  /* so many instructions are answered, the refused ones among them */
    size_t used;      /* the words that they have */
    size_t written;   /* the words of their records */
    struct day_state state; /* after them; as it came on a refusal by 1 or 2 */
};

/* Runs the instructions of a tape's words on a book, in place and one after another, each as day_call makes
 * it; the book is looked at for soundness once. Refused by 1, where answers has fewer than 3 places or out
 * fewer than 4,096 words, and then by 2. Else it stops at the end of the words (0, all of them used), where
 * the reader refuses (its number), or where answers has fewer than 3 places left or out fewer than 4,096 words
 * (0, not all of the words used): then the host empties both and goes on from the first word that is not used.
 * A refused instruction does not stop it. Instruction k, from 0, has DAY_ANSWER_NUMBERS places of answers from
 * 3 * k on: refusal, count, lots cancelled. The records of deliver, cutoff and resolve, twice as many words as
 * their count, stand one behind the other in out; the others write none. Places behind those that are written
 * keep what they have. */
DAY_NODISCARD
struct day_ran day_run(const uint32_t *words, size_t words_length,
                       struct day_state state,
                       int32_t *nets, size_t nets_length,
                       uint32_t *delivered, size_t delivered_length,
                       uint32_t *lifts, size_t lifts_length,
                       int64_t *charges, size_t charges_length,
                       uint8_t *issues, size_t issues_length,
                       uint8_t *froms, size_t froms_length,
                       uint8_t *tos, size_t tos_length,
                       uint32_t *lots, size_t lots_length,
                       uint16_t *days, size_t days_length,
                       uint64_t *answers, size_t answers_length,
                       uint32_t *out, size_t out_length);

/* Asks for a lift of an issue's unit, by its number, in Settling; changes nothing. The ticket is
 * issue, unit, account, lots, day, count; six times 0 on a refusal. */
DAY_NODISCARD
uint32_t day_ask(struct day_state state,
                 const int32_t *nets, size_t nets_length,
                 const uint32_t *delivered, size_t delivered_length,
                 const uint32_t *lifts, size_t lifts_length,
                 const int64_t *charges, size_t charges_length,
                 const uint8_t *issues, size_t issues_length,
                 const uint8_t *froms, size_t froms_length,
                 const uint8_t *tos, size_t tos_length,
                 const uint32_t *lots, size_t lots_length,
                 const uint16_t *days, size_t days_length,
                 uint32_t issue, uint32_t unit, uint32_t ticket[6]);

/* Lifts the ticket's unit before all unhanded ones, in Settling, and hands on as far as stock covers.
 * Only the lifts and the output are changed; count is that of the records written, 0 on a refusal. */
DAY_NODISCARD
uint32_t day_commit(const uint32_t ticket[6], struct day_state state,
                    const int32_t *nets, size_t nets_length,
                    const uint32_t *delivered, size_t delivered_length,
                    uint32_t *lifts, size_t lifts_length,
                    const int64_t *charges, size_t charges_length,
                    const uint8_t *issues, size_t issues_length,
                    const uint8_t *froms, size_t froms_length,
                    const uint8_t *tos, size_t tos_length,
                    const uint32_t *lots, size_t lots_length,
                    const uint16_t *days, size_t days_length,
                    uint32_t *out, size_t out_length, size_t *count);

/* Reads the instruction that begins at the first word: kind, a, b, c, d and its count of words;
 * all 0 on a refusal (13, 14). */
DAY_NODISCARD
uint32_t day_read(const uint32_t *words, size_t words_length, uint32_t instruction[5],
                  size_t *count);

/* The quotes in the words after a roll's head, sixteen prices and then sixteen accrued amounts, 0
 * where a word is missing. */
void day_quotes(const uint32_t *words, size_t words_length, uint32_t quotes[32]);

/* Writes an instruction, with the quotes of a roll; count is that of the words written, 0 on a
 * refusal (1, 15). */
DAY_NODISCARD
uint32_t day_write(uint32_t kind, uint32_t a, uint32_t b, uint32_t c, uint32_t d,
                   const uint32_t *quotes, size_t quotes_length,
                   uint32_t *out, size_t out_length, size_t *count);

/* The value of lots at a price, in yen rounded down, plus that of their accrued amount, rounded down
 * for itself; 0 yen on a refusal (7, 11). */
DAY_NODISCARD
uint32_t day_value(uint32_t lots, uint32_t price, uint32_t accrued, uint64_t *yen);

/* The charge on that value, in yen rounded down, for days at a rate; 0 yen on a refusal (7, 11). */
DAY_NODISCARD
uint32_t day_charge(uint32_t lots, uint32_t price, uint32_t days, uint32_t rate, uint32_t accrued,
                    uint64_t *yen);

/* A fail entry kept as a struct. */
struct day_entry {
    uint8_t issue;
    uint8_t from;
    uint8_t to;
    uint32_t lots;
    uint16_t day;
};

/* Lowers the lots of the entry at a place by at most so many, and answers how many were met; 0 where
 * there is no such entry. */
uint32_t entry_meet(struct day_entry *entries, size_t length, size_t at, uint32_t lots);

/* ---- the same with a caller
 *
 * Each call on a book has a form with its caller and the owners of the 64 accounts, by value and in front
 * of all else. The operator may make every call and is answered as without a caller. A participant may
 * deliver and resolve for accounts that are its own, and read them; everything else, and everything of any
 * other number, is refused by 27, straight after 5.
 *
 * Who may see what: of a call a participant is told the refusal and nothing else. count, cancelled, the
 * state after it and the output are the house's: they tell of other accounts. */

struct day_caller {
    uint32_t number;              /* 0 to 15 a participant, DAY_OPERATOR, any other nobody */
    uint8_t owners[DAY_ACCOUNTS]; /* of each account: 0 to 15 a participant, any other none */
};

DAY_NODISCARD
struct day_turned day_call_as(struct day_caller caller,
                              uint32_t kind, uint32_t a, uint32_t b, uint32_t c, uint32_t d,
                              const uint32_t *quotes, size_t quotes_length,
                              struct day_state state,
                              int32_t *nets, size_t nets_length,
                              uint32_t *delivered, size_t delivered_length,
                              uint32_t *lifts, size_t lifts_length,
                              int64_t *charges, size_t charges_length,
                              uint8_t *issues, size_t issues_length,
                              uint8_t *froms, size_t froms_length,
                              uint8_t *tos, size_t tos_length,
                              uint32_t *lots, size_t lots_length,
                              uint16_t *days, size_t days_length,
                              uint32_t *out, size_t out_length);

DAY_NODISCARD
uint32_t day_unit_as(struct day_caller caller, struct day_state state,
                     const int32_t *nets, size_t nets_length,
                     const uint32_t *delivered, size_t delivered_length,
                     const uint32_t *lifts, size_t lifts_length,
                     const int64_t *charges, size_t charges_length,
                     const uint8_t *issues, size_t issues_length,
                     const uint8_t *froms, size_t froms_length,
                     const uint8_t *tos, size_t tos_length,
                     const uint32_t *lots, size_t lots_length,
                     const uint16_t *days, size_t days_length,
                     uint32_t issue, uint32_t k, uint32_t answer[3]);

DAY_NODISCARD
uint32_t day_status_as(struct day_caller caller, struct day_state state,
                       const int32_t *nets, size_t nets_length,
                       const uint32_t *delivered, size_t delivered_length,
                       const uint32_t *lifts, size_t lifts_length,
                       const int64_t *charges, size_t charges_length,
                       const uint8_t *issues, size_t issues_length,
                       const uint8_t *froms, size_t froms_length,
                       const uint8_t *tos, size_t tos_length,
                       const uint32_t *lots, size_t lots_length,
                       const uint16_t *days, size_t days_length,
                       uint32_t issue, uint32_t k, uint32_t answer[2]);

DAY_NODISCARD
uint32_t day_simulate_as(struct day_caller caller, struct day_state state,
                         const int32_t *nets, size_t nets_length,
                         const uint32_t *delivered, size_t delivered_length,
                         const uint32_t *lifts, size_t lifts_length,
                         const int64_t *charges, size_t charges_length,
                         const uint8_t *issues, size_t issues_length,
                         const uint8_t *froms, size_t froms_length,
                         const uint8_t *tos, size_t tos_length,
                         const uint32_t *lots, size_t lots_length,
                         const uint16_t *days, size_t days_length,
                         const uint32_t *settles, size_t settles_length,
                         const uint32_t *inventories, size_t inventories_length, uint32_t size,
                         uint64_t *deliveries, uint64_t *rounds, uint32_t owed[16]);

DAY_NODISCARD
uint32_t day_ask_as(struct day_caller caller, struct day_state state,
                    const int32_t *nets, size_t nets_length,
                    const uint32_t *delivered, size_t delivered_length,
                    const uint32_t *lifts, size_t lifts_length,
                    const int64_t *charges, size_t charges_length,
                    const uint8_t *issues, size_t issues_length,
                    const uint8_t *froms, size_t froms_length,
                    const uint8_t *tos, size_t tos_length,
                    const uint32_t *lots, size_t lots_length,
                    const uint16_t *days, size_t days_length,
                    uint32_t issue, uint32_t unit, uint32_t ticket[6]);

DAY_NODISCARD
uint32_t day_commit_as(struct day_caller caller, const uint32_t ticket[6], struct day_state state,
                       const int32_t *nets, size_t nets_length,
                       const uint32_t *delivered, size_t delivered_length,
                       uint32_t *lifts, size_t lifts_length,
                       const int64_t *charges, size_t charges_length,
                       const uint8_t *issues, size_t issues_length,
                       const uint8_t *froms, size_t froms_length,
                       const uint8_t *tos, size_t tos_length,
                       const uint32_t *lots, size_t lots_length,
                       const uint16_t *days, size_t days_length,
                       uint32_t *out, size_t out_length, size_t *count);

/* What is seen of an account. */
struct day_seen {
    uint32_t refusal;       /* 0 where it is done; else all else is 0 */
    uint32_t some;          /* 1 where the account has more than k entries in the issue, else 0 */
    int32_t net;            /* in the issue */
    int64_t charge;         /* the account's, in yen */
    struct day_entry entry; /* its k-th entry in the issue, from it or to it; 0 where there is none */
};

/* Reads an account, in any phase: k counts its entries in the issue from 0, in ledger order. A participant
 * reads its own accounts, the operator any. Refused by 2, 4, 5 and 27. */
DAY_NODISCARD
struct day_seen day_look(struct day_caller caller, struct day_state state,
                         const int32_t *nets, size_t nets_length,
                         const uint32_t *delivered, size_t delivered_length,
                         const uint32_t *lifts, size_t lifts_length,
                         const int64_t *charges, size_t charges_length,
                         const uint8_t *issues, size_t issues_length,
                         const uint8_t *froms, size_t froms_length,
                         const uint8_t *tos, size_t tos_length,
                         const uint32_t *lots, size_t lots_length,
                         const uint16_t *days, size_t days_length,
                         uint32_t issue, uint32_t account, uint32_t k);

/* Each trade report's share of a fail inside a trust account, at the place of its number in out, 0
 * where it takes none. Of one issue's reports of the day the columns have a place each: sub-account,
 * counterparty, lots (above 0 received, below 0 delivered), earlier fail (0: none). The draw has each
 * report number from 0 just once, in the order drawn. Reports with an earlier fail are dropped, and
 * receipts and deliveries of each sub-account set off; those with lots above 0, of sub-accounts that
 * receive more than they deliver, take lots up to their own, first those whose counterparty is the
 * failing account, then the others. out has at least 256 places; those beyond the reports keep their
 * content, and on a refusal (1, 5, 7, 21, 22, 23) all do. */
DAY_NODISCARD
uint32_t day_trust(const uint32_t *sub_accounts, size_t sub_accounts_length,
                   const uint32_t *counterparties, size_t counterparties_length,
                   const int32_t *lots, size_t lots_length,
                   const uint8_t *earlier, size_t earlier_length,
                   const uint32_t *draw, size_t draw_length,
                   uint32_t fail, uint32_t failing, uint32_t *out, size_t out_length);

/* Obligated funds for a default. Amounts are in 100 million yen, a factor is in tenths; what is
 * answered stands at the places of the participants' numbers, 0 at the places beyond them. On a
 * refusal out is as it came. A place of bases may hold any number.
 *
 * The base contributions of averages: average times factor; 0 stays 0, above 0 up to 50 gives 50, above
 * that down to a multiple of 50. Refused by 24. */
DAY_NODISCARD
uint32_t day_bases(const uint64_t *averages, size_t averages_length, uint64_t tenths,
                   uint64_t out[64]);

/* The shares of the funds among participants with given bases. Participants come by average, largest
 * first, equals by lower number; rounds give each 50 up to its base, and the last fraction goes to the
 * next whose base is not full. Refused by 24 and then 25. */
DAY_NODISCARD
uint32_t day_shares(const uint64_t *averages, size_t averages_length,
                    const uint64_t *bases, size_t bases_length,
                    uint64_t funds, uint64_t out[64]);

/* The shares of the funds among participants with the base contributions of their averages. Refused by
 * 24 and then 25. */
DAY_NODISCARD
uint32_t day_funds(const uint64_t *averages, size_t averages_length, uint64_t tenths,
                   uint64_t funds, uint64_t out[64]);

/* Every small market, each once: all nets of so many accounts, 0 to 5, each within -most..most, most 0
 * to 4, that sum to 0. They stand one after the other, a place for each account, in rising order: the
 * first account compared first, most negative first. out has at least 19,755 places; those after the last
 * market keep their content. The number of markets comes through count (no accounts: one market, of no
 * places). Refused by 1 and then 7, with a count of 0 and out as it came. */
DAY_NODISCARD
uint32_t day_markets(uint32_t accounts, uint32_t most, int32_t *out, size_t out_length,
                     uint32_t *count);

/* Of these markets, those in which each account owes at least its delivered lots, counted by their fail
 * entries after cutoff: how many have 0, 1, 2, 3, 4 of them. Lots that no market owes give five zeros.
 * Refused by 7, also where there are not as many delivered lots as accounts, with counts of 0. */
DAY_NODISCARD
uint32_t day_market_fails(uint32_t accounts, uint32_t most,
                          const uint32_t *delivered, size_t delivered_length, uint32_t counts[5]);

/* A snapshot of a book (docs/SNAPSHOT.md): so many words, four bytes each and little-endian on the disk. */
#define DAY_SNAPSHOT_WORDS 6583u

/* Writes the words of a sound book from the output's first on; what stands behind them stays. 0 done, 1 the output has
 * fewer words than a snapshot, 5 no sound book. A refusal leaves the output as it came. */
DAY_NODISCARD
uint32_t day_save(struct day_state state, const int32_t *nets, size_t nets_length, const uint32_t *delivered,
                  size_t delivered_length, const uint32_t *lifts, size_t lifts_length, const int64_t *charges,
                  size_t charges_length, const uint8_t *issues, size_t issues_length, const uint8_t *froms,
                  size_t froms_length, const uint8_t *tos, size_t tos_length, const uint32_t *lots, size_t lots_length,
                  const uint16_t *days, size_t days_length, uint32_t *out, size_t out_length);

/* What opening gives: the reason, and the state, that of a fresh book where it is refused. */
struct day_opened {
    uint32_t reason;
    struct day_state state;
};

/* The book of words, in lent columns. 0 opened; 1 another number of words, or a column of another length than a book's;
 * 2 another version; 3 the checksum; 4 a number that does not fit its field; 5 no sound book. A refusal leaves the
 * columns as they came. */
DAY_NODISCARD
struct day_opened day_open(const uint32_t *words, size_t words_length, int32_t *nets, size_t nets_length,
                           uint32_t *delivered, size_t delivered_length, uint32_t *lifts, size_t lifts_length,
                           int64_t *charges, size_t charges_length, uint8_t *issues, size_t issues_length,
                           uint8_t *froms, size_t froms_length, uint8_t *tos, size_t tos_length, uint32_t *lots,
                           size_t lots_length, uint16_t *days, size_t days_length);

/* An account's fails statement in an issue, from a tape's first 4,096 instructions, or fewer, run on a fresh
 * book: numbers has lots due to deliver at closes, lots delivered by cutoffs, lots failed, lots resolved,
 * and failed over due as two whole numbers, unreduced (failed, due). A word that the reader refuses ends the
 * span there; a refused instruction adds nothing; a day still settling adds its resolves alone. Refused by 4
 * and then 5, with 0 in every place of numbers. */
DAY_NODISCARD
uint32_t day_statement(const uint32_t *words, size_t words_length, uint32_t issue, uint32_t account,
                       uint64_t numbers[6]);

/* The journal of calls: a record of 36 words each, counted from 0. Word 0 is the record's number; words 1 to
 * 33 are an instruction's as they stand on a tape, or DAY_COMMIT in bits 31..28 and a ticket's six numbers,
 * then zeros; words 34 and 35 the checksum of the others (once word 0, twice word 1, ..), low half first.
 *
 * Writes the record of an instruction, with the quotes of a roll, or of a ticket's commit. DAY_JOURNAL_DONE,
 * or _OUTPUT or _NUMBER with out as it came; words behind the record keep their content. */
DAY_NODISCARD
uint32_t day_journal_call(uint32_t number, uint32_t kind, uint32_t a, uint32_t b, uint32_t c, uint32_t d,
                          const uint32_t *quotes, size_t quotes_length,
                          uint32_t *out, size_t out_length);

DAY_NODISCARD
uint32_t day_journal_commit(uint32_t number, const uint32_t ticket[6], uint32_t *out, size_t out_length);

/* What stands at the front of the rest of a journal. */
struct day_journalled {
    uint32_t reason;     /* DAY_JOURNAL_DONE, _NONE, _TORN or _DAMAGED; all else is 0 unless it is done */
    uint32_t kind;       /* an instruction's, or DAY_COMMIT */
    uint32_t numbers[6]; /* an instruction's four, then 0; or a ticket's six */
};

/* Reads the record with this number, at the front of the words from there to the journal's end. The quotes of
 * a roll are those that day_quotes gives of the words from the record's second on. */
DAY_NODISCARD
struct day_journalled day_journal_read(uint32_t number, const uint32_t *words, size_t words_length);

/* ---- a book as a struct, and the calls on it */

struct day_book {
    struct day_state state;
    int32_t nets[DAY_PLACES];
    uint32_t delivered[DAY_PLACES];
    uint32_t lifts[DAY_LIFT_PLACES];
    int64_t charges[DAY_ACCOUNTS];
    uint8_t issues[DAY_ENTRIES];
    uint8_t froms[DAY_ENTRIES];
    uint8_t tos[DAY_ENTRIES];
    uint32_t lots[DAY_ENTRIES];
    uint16_t days[DAY_ENTRIES];
};

/* A call's answer. */
struct day_answer {
    uint32_t refusal;   /* 0 where it is done */
    size_t count;       /* records written; for pair-off, steps */
    uint64_t cancelled; /* pair-off's lots */
};

/* A unit: the account that it is due to and its lots, if it was found. */
struct day_unit_answer {
    uint32_t refusal;
    uint32_t found;
    uint32_t account;
    uint32_t lots;
};

/* Why a unit has not come: one of the cases, and the lots that it waits for or lacked. */
struct day_status_answer {
    uint32_t refusal;
    uint32_t status;
    uint32_t lots;
};

/* What came of a simulated desk. */
struct day_simulated {
    uint32_t refusal;
    uint64_t deliveries;
    uint64_t rounds;              /* the last one, without a delivery, among them */
    uint32_t owed[DAY_ISSUES];    /* of each issue, the lots still owed */
};

/* A ticket for a lift: issue and unit number, the unit's account and lots, the day, and the count of
 * that day's accepted deliveries and lifts in the issue. */
struct day_ticket {
    uint32_t issue;
    uint32_t unit;
    uint32_t account;
    uint32_t lots;
    uint32_t day;
    uint32_t count;
};

/* The answer to asking for a lift; on a refusal the ticket is all 0. */
struct day_ask_answer {
    uint32_t refusal;
    struct day_ticket ticket;
};

/* A record of an output. */
struct day_record {
    uint32_t kind;
    uint32_t issue;
    uint32_t from;
    uint32_t to;
    uint32_t lots;
};

/* Makes the book fresh: day 0, Taking, all zero, no issue marked, ledger empty. */
static inline void day_book_fresh(struct day_book *book)
{
    memset(book, 0, sizeof *book);
}

/* 1 where the book is sound, else 0. */
DAY_NODISCARD
static inline uint32_t day_book_sound(const struct day_book *book)
{
    return day_sound(book->state, book->nets, DAY_PLACES,
                     book->delivered, DAY_PLACES, book->lifts, DAY_LIFT_PLACES,
                     book->charges, DAY_ACCOUNTS, book->issues, DAY_ENTRIES,
                     book->froms, DAY_ENTRIES, book->tos, DAY_ENTRIES,
                     book->lots, DAY_ENTRIES, book->days, DAY_ENTRIES);
}

/* The k-th unit of an issue, k from 0. */
DAY_NODISCARD
static inline struct day_unit_answer day_book_unit(const struct day_book *book, uint32_t issue,
                                                   uint32_t k)
{
    struct day_unit_answer unit;
    uint32_t answer[3] = {0, 0, 0};
    unit.refusal = day_unit(book->state, book->nets, DAY_PLACES, book->delivered, DAY_PLACES,
                            book->lifts, DAY_LIFT_PLACES,
                            book->charges, DAY_ACCOUNTS, book->issues, DAY_ENTRIES,
                            book->froms, DAY_ENTRIES, book->tos, DAY_ENTRIES,
                            book->lots, DAY_ENTRIES, book->days, DAY_ENTRIES, issue, k, answer);
    unit.found = answer[0];
    unit.account = answer[1];
    unit.lots = answer[2];
    return unit;
}

/* Why the k-th unit of an issue, k from 0, has not come. */
DAY_NODISCARD
static inline struct day_status_answer day_book_status(const struct day_book *book, uint32_t issue,
                                                       uint32_t k)
{
    struct day_status_answer told;
    uint32_t answer[2] = {0, 0};
    told.refusal = day_status(book->state, book->nets, DAY_PLACES, book->delivered, DAY_PLACES,
                              book->lifts, DAY_LIFT_PLACES,
                              book->charges, DAY_ACCOUNTS, book->issues, DAY_ENTRIES,
                              book->froms, DAY_ENTRIES, book->tos, DAY_ENTRIES,
                              book->lots, DAY_ENTRIES, book->days, DAY_ENTRIES, issue, k, answer);
    told.status = answer[0];
    told.lots = answer[1];
    return told;
}

/* Tries a unit size on a simulated desk; changes nothing. */
DAY_NODISCARD
static inline struct day_simulated
day_book_simulate(const struct day_book *book, const uint32_t settles[DAY_ACCOUNTS],
                  const uint32_t inventories[DAY_INVENTORIES], uint32_t size)
{
    struct day_simulated tried;
    memset(&tried, 0, sizeof tried);
    tried.refusal = day_simulate(book->state, book->nets, DAY_PLACES, book->delivered, DAY_PLACES,
                                 book->lifts, DAY_LIFT_PLACES,
                                 book->charges, DAY_ACCOUNTS, book->issues, DAY_ENTRIES,
                                 book->froms, DAY_ENTRIES, book->tos, DAY_ENTRIES,
                                 book->lots, DAY_ENTRIES, book->days, DAY_ENTRIES,
                                 settles, DAY_ACCOUNTS, inventories, DAY_INVENTORIES, size,
                                 &tried.deliveries, &tried.rounds, tried.owed);
    return tried;
}

/* The call of an instruction, with quotes and an output of these lengths. */
DAY_NODISCARD
static inline struct day_answer day_book_call(struct day_book *book, uint32_t kind, uint32_t a,
                                              uint32_t b, uint32_t c, uint32_t d,
                                              const uint32_t *quotes, size_t quotes_length,
                                              uint32_t *out, size_t out_length)
{
    struct day_answer answer;
    struct day_turned turned =
        day_call(kind, a, b, c, d, quotes, quotes_length, book->state, book->nets, DAY_PLACES,
                 book->delivered, DAY_PLACES, book->lifts, DAY_LIFT_PLACES,
                 book->charges, DAY_ACCOUNTS, book->issues, DAY_ENTRIES,
                 book->froms, DAY_ENTRIES, book->tos, DAY_ENTRIES,
                 book->lots, DAY_ENTRIES, book->days, DAY_ENTRIES, out, out_length);
    if (turned.refusal == DAY_DONE) {
        book->state = turned.state; /* else it is as it came */
    }
    answer.refusal = turned.refusal;
    answer.count = turned.count;
    answer.cancelled = turned.cancelled;
    return answer;
}

/* Runs the instructions of some words, with answers and an output of these lengths. */
DAY_NODISCARD
static inline struct day_ran day_book_run(struct day_book *book, const uint32_t *words,
                                          size_t words_length, uint64_t *answers,
                                          size_t answers_length, uint32_t *out, size_t out_length)
{
    struct day_ran ran =
        day_run(words, words_length, book->state, book->nets, DAY_PLACES,
                book->delivered, DAY_PLACES, book->lifts, DAY_LIFT_PLACES,
                book->charges, DAY_ACCOUNTS, book->issues, DAY_ENTRIES,
                book->froms, DAY_ENTRIES, book->tos, DAY_ENTRIES,
                book->lots, DAY_ENTRIES, book->days, DAY_ENTRIES,
                answers, answers_length, out, out_length);
    book->state = ran.state;
    return ran;
}

/* Asks for a lift of an issue's unit, by its number; changes nothing. */
DAY_NODISCARD
static inline struct day_ask_answer day_book_ask(const struct day_book *book, uint32_t issue,
                                                 uint32_t unit)
{
    struct day_ask_answer asked;
    uint32_t ticket[6] = {0, 0, 0, 0, 0, 0};
    asked.refusal = day_ask(book->state, book->nets, DAY_PLACES, book->delivered, DAY_PLACES,
                            book->lifts, DAY_LIFT_PLACES,
                            book->charges, DAY_ACCOUNTS, book->issues, DAY_ENTRIES,
                            book->froms, DAY_ENTRIES, book->tos, DAY_ENTRIES,
                            book->lots, DAY_ENTRIES, book->days, DAY_ENTRIES, issue, unit, ticket);
    asked.ticket.issue = ticket[0];
    asked.ticket.unit = ticket[1];
    asked.ticket.account = ticket[2];
    asked.ticket.lots = ticket[3];
    asked.ticket.day = ticket[4];
    asked.ticket.count = ticket[5];
    return asked;
}

/* Lifts the ticket's unit, and writes to the output what is handed over. */
DAY_NODISCARD
static inline struct day_answer day_book_commit(struct day_book *book, struct day_ticket ticket,
                                                uint32_t out[DAY_OUT_WORDS])
{
    struct day_answer answer;
    uint32_t numbers[6];
    numbers[0] = ticket.issue;
    numbers[1] = ticket.unit;
    numbers[2] = ticket.account;
    numbers[3] = ticket.lots;
    numbers[4] = ticket.day;
    numbers[5] = ticket.count;
    answer.count = 0;
    answer.cancelled = 0;
    answer.refusal = day_commit(numbers, book->state, book->nets, DAY_PLACES,
                                book->delivered, DAY_PLACES,
                                book->lifts, DAY_LIFT_PLACES, book->charges, DAY_ACCOUNTS,
                                book->issues, DAY_ENTRIES, book->froms, DAY_ENTRIES,
                                book->tos, DAY_ENTRIES, book->lots, DAY_ENTRIES,
                                book->days, DAY_ENTRIES, out, DAY_OUT_WORDS, &answer.count);
    return answer;
}

/* A call that uses neither quotes nor output. */
DAY_NODISCARD
static inline struct day_answer day_book_plain(struct day_book *book, uint32_t kind, uint32_t a,
                                               uint32_t b, uint32_t c, uint32_t d)
{
    uint32_t none = 0;
    uint32_t unused = 0;
    return day_book_call(book, kind, a, b, c, d, &none, 0, &unused, 0);
}

/* A call that writes records to the output. */
DAY_NODISCARD
static inline struct day_answer day_book_written(struct day_book *book, uint32_t kind, uint32_t a,
                                                 uint32_t b, uint32_t c,
                                                 uint32_t out[DAY_OUT_WORDS])
{
    uint32_t none = 0;
    return day_book_call(book, kind, a, b, c, 0, &none, 0, out, DAY_OUT_WORDS);
}

DAY_NODISCARD
static inline struct day_answer day_book_trade(struct day_book *book, uint32_t issue, uint32_t from,
                                               uint32_t to, uint32_t lots)
{
    return day_book_plain(book, DAY_TRADE, issue, from, to, lots);
}

DAY_NODISCARD
static inline struct day_answer day_book_close(struct day_book *book)
{
    return day_book_plain(book, DAY_CLOSE, 0, 0, 0, 0);
}

DAY_NODISCARD
static inline struct day_answer day_book_deliver(struct day_book *book, uint32_t issue,
                                                 uint32_t account, uint32_t lots,
                                                 uint32_t out[DAY_OUT_WORDS])
{
    return day_book_written(book, DAY_DELIVER, issue, account, lots, out);
}

DAY_NODISCARD
static inline struct day_answer day_book_cutoff(struct day_book *book, uint32_t out[DAY_OUT_WORDS])
{
    return day_book_written(book, DAY_CUTOFF, 0, 0, 0, out);
}

DAY_NODISCARD
static inline struct day_answer day_book_resolve(struct day_book *book, uint32_t issue,
                                                 uint32_t account, uint32_t lots,
                                                 uint32_t out[DAY_OUT_WORDS])
{
    return day_book_written(book, DAY_RESOLVE, issue, account, lots, out);
}

DAY_NODISCARD
static inline struct day_answer day_book_pair_off(struct day_book *book, uint32_t issue,
                                                  uint32_t account)
{
    return day_book_plain(book, DAY_PAIR_OFF, issue, account, 0, 0);
}

DAY_NODISCARD
static inline struct day_answer day_book_roll(struct day_book *book, uint32_t days, uint32_t rate,
                                              const uint32_t quotes[DAY_QUOTES])
{
    uint32_t unused = 0;
    return day_book_call(book, DAY_ROLL, days, rate, 0, 0, quotes, DAY_QUOTES, &unused, 0);
}

/* The mark of an issue: 1 where it takes even lots only from now on, 0 where it takes any again. */
DAY_NODISCARD
static inline struct day_answer day_book_mark(struct day_book *book, uint32_t issue, uint32_t mark)
{
    return day_book_plain(book, DAY_MARK, issue, mark, 0, 0);
}

/* From this day on full units are dealt one to each receiver a round. */
DAY_NODISCARD
static inline struct day_answer day_book_turn(struct day_book *book, uint32_t day)
{
    return day_book_plain(book, DAY_TURN, day, 0, 0, 0);
}

/* The call of an instruction by a caller. Of the answer a participant is told the refusal alone. */
DAY_NODISCARD
static inline struct day_answer day_book_call_as(struct day_caller caller, struct day_book *book,
                                                 uint32_t kind, uint32_t a, uint32_t b, uint32_t c,
                                                 uint32_t d, const uint32_t *quotes,
                                                 size_t quotes_length, uint32_t *out,
                                                 size_t out_length)
{
    struct day_answer answer;
    struct day_turned turned =
        day_call_as(caller, kind, a, b, c, d, quotes, quotes_length, book->state,
                    book->nets, DAY_PLACES, book->delivered, DAY_PLACES,
                    book->lifts, DAY_LIFT_PLACES, book->charges, DAY_ACCOUNTS,
                    book->issues, DAY_ENTRIES, book->froms, DAY_ENTRIES,
                    book->tos, DAY_ENTRIES, book->lots, DAY_ENTRIES,
                    book->days, DAY_ENTRIES, out, out_length);
    if (turned.refusal == DAY_DONE) {
        book->state = turned.state; /* else it is as it came */
    }
    answer.refusal = turned.refusal;
    answer.count = turned.count;
    answer.cancelled = turned.cancelled;
    return answer;
}

DAY_NODISCARD
static inline struct day_answer day_book_deliver_as(struct day_caller caller, struct day_book *book,
                                                    uint32_t issue, uint32_t account, uint32_t lots,
                                                    uint32_t out[DAY_OUT_WORDS])
{
    uint32_t none = 0;
    return day_book_call_as(caller, book, DAY_DELIVER, issue, account, lots, 0, &none, 0, out,
                            DAY_OUT_WORDS);
}

DAY_NODISCARD
static inline struct day_answer day_book_resolve_as(struct day_caller caller, struct day_book *book,
                                                    uint32_t issue, uint32_t account, uint32_t lots,
                                                    uint32_t out[DAY_OUT_WORDS])
{
    uint32_t none = 0;
    return day_book_call_as(caller, book, DAY_RESOLVE, issue, account, lots, 0, &none, 0, out,
                            DAY_OUT_WORDS);
}

/* Reads an account: its net in the issue, its charge, its k-th entry there. */
DAY_NODISCARD
static inline struct day_seen day_book_look(struct day_caller caller, const struct day_book *book,
                                            uint32_t issue, uint32_t account, uint32_t k)
{
    return day_look(caller, book->state,
                    book->nets, DAY_PLACES, book->delivered, DAY_PLACES,
                    book->lifts, DAY_LIFT_PLACES, book->charges, DAY_ACCOUNTS,
                    book->issues, DAY_ENTRIES, book->froms, DAY_ENTRIES,
                    book->tos, DAY_ENTRIES, book->lots, DAY_ENTRIES,
                    book->days, DAY_ENTRIES, issue, account, k);
}

/* The record at a place of an output, 0 the first. */
static inline struct day_record day_record_at(const uint32_t *out, size_t at)
{
    struct day_record record;
    uint32_t head = out[2 * at];
    record.kind = head >> 28;
    record.issue = (head >> 24) & 15u;
    record.from = (head >> 18) & 63u;
    record.to = (head >> 12) & 63u;
    record.lots = out[2 * at + 1] & 0x0fffffffu;
    return record;
}

/* What a refusal says, for people. */
static inline const char *day_refusal_text(uint32_t refusal)
{
    switch (refusal) {
    case DAY_DONE: return "done";
    case DAY_REFUSED_OUTPUT: return "the output has too few words";
    case DAY_REFUSED_BOOK: return "the book is not sound";
    case DAY_REFUSED_PHASE: return "this is not the call's phase";
    case DAY_REFUSED_ISSUE: return "the issue is above 15";
    case DAY_REFUSED_ACCOUNT: return "an account is above 63";
    case DAY_REFUSED_SAME: return "from and to are the same account";
    case DAY_REFUSED_LOTS: return "lots are not 1 to 20,000,000";
    case DAY_REFUSED_NET: return "a net would pass 20,000,000 lots to one side";
    case DAY_REFUSED_OWED: return "the account does not owe that many lots";
    case DAY_REFUSED_ROOM: return "the ledger would have more than 2,048 entries";
    case DAY_REFUSED_TERMS: return "price, accrued, days or rate is out of range";
    case DAY_REFUSED_LAST: return "the day is 65,535, the last one";
    case DAY_REFUSED_TAPE: return "the tape ends before the instruction does";
    case DAY_REFUSED_WORD: return "a word's kind or its unused bits are wrong";
    case DAY_REFUSED_BITS: return "a number does not fit its bits";
    case DAY_REFUSED_UNIT: return "there is no such unit, or for a lift it is handed already";
    case DAY_REFUSED_TICKET: return "the ticket is not what asking now gives";
    case DAY_REFUSED_LIFTS: return "eight lifts stand for the issue";
    case DAY_REFUSED_ODD: return "lots are odd in a marked issue";
    case DAY_REFUSED_IN_USE: return "the issue has a net or an entry";
    case DAY_REFUSED_DRAW: return "the list is not each report number just once";
    case DAY_REFUSED_REPORTS: return "more than 256 reports, or a sub-account above 31";
    case DAY_REFUSED_ELIGIBLE: return "the fail is larger than the eligible lots";
    case DAY_REFUSED_PARTICIPANTS: return "more than 64 participants, or an amount above 1,000,000";
    case DAY_REFUSED_BASES: return "the funds are above all bases together";
    case DAY_REFUSED_CHANGE_OVER: return "the day is not after today, or the new order is in force";
    case DAY_REFUSED_RIGHT: return "the caller has not the right";
    default: return "no refusal of the rules";
    }
}

#ifdef __cplusplus
}
#endif

#endif
