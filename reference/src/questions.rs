//! The desk's questions: each answers Ok for 'yes' and its number for 'no'.

use crate::book::{place, Book, Phase, ACCOUNTS, ENTRIES, ISSUES, LIFTS, QUOTES};
use crate::calls::Ticket;
use crate::measures::{MOST_ACCRUED, MOST_DAYS, MOST_LOTS, MOST_PRICE, MOST_RATE};
use crate::units::{handed, Unit};

/// The words that the output of deliver, commit, cutoff and resolve has at the least.
pub const CALL_OUTPUT: usize = 4_096;
/// The words that the output of the tape writer has at the least.
pub const WRITER_OUTPUT: usize = 33;

/// Whether question 2 is put, or the book is known to be sound.
#[derive(Clone, Copy, Debug, PartialEq, Eq)]
pub enum Soundness {
    Asked,
    Known,
}

/// Puts a question; a 'no' gives its number.
pub fn ask(number: u32, yes: bool) -> Result<(), u32> {
    if yes {
        Ok(())
    } else {
        Err(number)
    }
}

/// 1. Has the output at least so many words?
pub fn output_has(output: &[u32], words: usize) -> Result<(), u32> {
    ask(1, output.len() >= words)
}

/// 2. Is the book sound?
pub fn book_is_sound(book: &Book, soundness: Soundness) -> Result<(), u32> {
    ask(2, soundness == Soundness::Known || book.sound())
}

/// 3. Is this the call's phase?
pub fn phase_is(book: &Book, phase: Phase) -> Result<(), u32> {
    ask(3, book.phase == phase)
}

/// 3. Is this another phase than the one that is refused?
pub fn phase_is_not(book: &Book, phase: Phase) -> Result<(), u32> {
    ask(3, book.phase != phase)
}

/// 4. Is the issue at most 15? Gives the issue as a place in the columns.
pub fn issue_in_range(issue: u32) -> Result<usize, u32> {
    usize::try_from(issue).ok().filter(|&issue| issue < ISSUES).ok_or(4)
}

/// 5. Is the account at most 63? Gives the account as a place in the columns.
pub fn account_in_range(account: u32) -> Result<usize, u32> {
    usize::try_from(account).ok().filter(|&account| account < ACCOUNTS).ok_or(5)
}

/// 6. Do from and to differ?
pub fn accounts_differ(from: usize, to: usize) -> Result<(), u32> {
    ask(6, from != to)
}

/// 7. Are lots 1..20,000,000?
pub fn lots_in_range(lots: u32) -> Result<(), u32> {
    ask(7, (1..=MOST_LOTS).contains(&lots))
}

/// 8. Do both nets stay within ±20,000,000 after the trade?
pub fn nets_stay_in_range(
    book: &Book,
    issue: usize,
    from: usize,
    to: usize,
    lots: u32,
) -> Result<(), u32> {
    let most = i64::from(MOST_LOTS);
    let from_net = i64::from(book.nets[place(issue, from)]) - i64::from(lots);
    let to_net = i64::from(book.nets[place(issue, to)]) + i64::from(lots);
    ask(8, from_net.abs() <= most && to_net.abs() <= most)
}

/// 9. Does the account still owe that many lots?
pub fn owes(owed: u64, lots: u32) -> Result<(), u32> {
    ask(9, u64::from(lots) <= owed)
}

/// 10. Do old and new entries together number at most 2,048?
pub fn entries_have_room(entries: usize) -> Result<(), u32> {
    ask(10, entries <= ENTRIES)
}

/// 11. Are days 1..12?
pub fn days_in_range(days: u32) -> Result<(), u32> {
    ask(11, (1..=MOST_DAYS).contains(&days))
}

/// 11. Is the rate 0..10,000?
pub fn rate_in_range(rate: u32) -> Result<(), u32> {
    ask(11, rate <= MOST_RATE)
}

/// 11. Is the price 1..200,000, accrued 0..10,000, and are both together at most 200,000?
pub fn quote_in_range(price: u32, accrued: u32) -> Result<(), u32> {
    ask(11, (1..=MOST_PRICE).contains(&price))?;
    ask(11, accrued <= MOST_ACCRUED)?;
    ask(11, price + accrued <= MOST_PRICE)
}

/// 11. Are prices and accrued amounts sixteen each, and right for each issue?
pub fn quotes_in_range(quotes: &[u32]) -> Result<(), u32> {
    ask(11, quotes.len() == QUOTES)?;
    let (prices, accrued) = quotes.split_at(ISSUES);
    prices.iter().zip(accrued).try_for_each(|(&price, &accrued)| quote_in_range(price, accrued))
}

/// 12. Is the day below 65,535?
pub fn day_can_rise(book: &Book) -> Result<(), u32> {
    ask(12, book.day < u16::MAX)
}

/// 13. Does the tape hold this word of the instruction?
pub fn word_present(words: &[u32], at: usize) -> Result<u32, u32> {
    words.get(at).copied().ok_or(13)
}

/// 14. Are the word's kind and unused bits right?
pub fn word_right(yes: bool) -> Result<(), u32> {
    ask(14, yes)
}

/// 15. Does the field fit its bits?
pub fn field_fits(number: u32, bits: u32) -> Result<(), u32> {
    ask(15, number >> bits == 0)
}

/// 16. Is there such a unit that is not handed yet? Gives the unit.
pub fn unit_unhanded(units: &[Unit], delivered: u64, k: u32) -> Result<Unit, u32> {
    let (count, _) = handed(units, delivered);
    let k = usize::try_from(k).map_err(|_| 16_u32)?;
    ask(16, k >= count)?;
    units.get(k).copied().ok_or(16)
}

/// 16. Is there such a unit, handed or not? Gives its place in the order.
pub fn unit_is_there(units: &[Unit], k: u32) -> Result<usize, u32> {
    usize::try_from(k).ok().filter(|&k| k < units.len()).ok_or(16)
}

/// 17. Are the ticket's account, lots, day and count what asking now gives?
pub fn ticket_is(ticket: &Ticket, now: &Ticket) -> Result<(), u32> {
    ask(17, ticket == now)
}

/// 18. Do fewer than eight lifts stand?
pub fn lifts_have_room(lifts: usize) -> Result<(), u32> {
    ask(18, lifts < LIFTS)
}

/// 19. Are the lots even, if the issue is marked?
pub fn lots_suit_the_mark(book: &Book, issue: usize, lots: u32) -> Result<(), u32> {
    ask(19, !book.is_marked(issue) || lots % 2 == 0)
}

/// 20. Has the issue neither a net nor an entry?
pub fn issue_is_empty(book: &Book, issue: usize) -> Result<(), u32> {
    let no_net = book.nets_of(issue).iter().all(|&net| net == 0);
    let no_entry = book.entries().all(|entry| usize::from(entry.issue) != issue);
    ask(20, no_net && no_entry)
}

/// 26. Is the day after today, and is the new order not in force yet?
pub fn day_can_be_named(book: &Book, day: u32) -> Result<(), u32> {
    ask(26, day > u32::from(book.day) && !book.deals_in_turn())
}
