//! The calls, the unit question and the status of a unit, each open and for a book known to be sound.
//!
//! The open form puts every question of the call. The form `_on_sound` leaves out question 2
//! alone; it is for a program whose book is sound by construction.

mod ledger;
mod lifting;
mod settings;
mod settling;
mod status;
mod taking;

use crate::book::Book;
use crate::questions::{book_is_sound, issue_in_range, Soundness};
use crate::units::kth_unit;

/// A call's answer: refusal number, 0 if done, and count of records (tape writer: of words).
#[derive(Clone, Copy, Debug, PartialEq, Eq)]
pub struct Answer {
    pub number: u32,
    pub count: u32,
}

/// Pair-off's answer: refusal number, steps made and lots cancelled.
#[derive(Clone, Copy, Debug, PartialEq, Eq)]
pub struct PairOffAnswer {
    pub number: u32,
    pub steps: u32,
    pub lots: u64,
}

/// The unit question's answer: refusal number, and account and lots if found.
///
/// 'None' is number 0 and not found.
#[derive(Clone, Copy, Debug, PartialEq, Eq)]
pub struct UnitAnswer {
    pub number: u32,
    pub found: bool,
    pub account: u32,
    pub lots: u32,
}

/// A ticket for a lift: issue and unit number, the unit's account and lots, the day, and the count
/// of that day's accepted deliveries and lifts in the issue.
#[derive(Clone, Copy, Debug, Default, PartialEq, Eq)]
pub struct Ticket {
    pub issue: u32,
    pub unit: u32,
    pub account: u32,
    pub lots: u32,
    pub day: u32,
    pub count: u32,
}

/// The answer to asking for a lift: refusal number and ticket, all 0 on a refusal.
#[derive(Clone, Copy, Debug, PartialEq, Eq)]
pub struct AskAnswer {
    pub number: u32,
    pub ticket: Ticket,
}

/// The reason a unit has not come: handed; waiting, with so many lots; partly failed, with the lots
/// lacking; wholly failed.
#[derive(Clone, Copy, Debug, PartialEq, Eq)]
pub enum Status {
    Handed,
    Waiting(u32),
    PartlyFailed(u32),
    WhollyFailed,
}

/// What is told of a unit: refusal number, and the status where it is 0.
#[derive(Clone, Copy, Debug, PartialEq, Eq)]
pub struct StatusAnswer {
    pub number: u32,
    pub status: Option<Status>,
}

impl From<Result<u32, u32>> for Answer {
    /// The count, or the refusal number with 0 for the count.
    fn from(result: Result<u32, u32>) -> Answer {
        match result {
            Ok(count) => Answer { number: 0, count },
            Err(number) => Answer { number, count: 0 },
        }
    }
}

impl From<Result<(u32, u64), u32>> for PairOffAnswer {
    /// Steps and lots, or the refusal number with 0 for both.
    fn from(result: Result<(u32, u64), u32>) -> PairOffAnswer {
        match result {
            Ok((steps, lots)) => PairOffAnswer { number: 0, steps, lots },
            Err(number) => PairOffAnswer { number, steps: 0, lots: 0 },
        }
    }
}

impl From<Result<Ticket, u32>> for AskAnswer {
    /// The ticket, or the refusal number with 0 for every number of the ticket.
    fn from(result: Result<Ticket, u32>) -> AskAnswer {
        match result {
            Ok(ticket) => AskAnswer { number: 0, ticket },
            Err(number) => AskAnswer { number, ticket: Ticket::default() },
        }
    }
}

impl From<Result<Status, u32>> for StatusAnswer {
    /// The status, or the refusal number and none.
    fn from(result: Result<Status, u32>) -> StatusAnswer {
        match result {
            Ok(status) => StatusAnswer { number: 0, status: Some(status) },
            Err(number) => StatusAnswer { number, status: None },
        }
    }
}

/// The k-th unit of an issue, k from 0, in any phase.
pub fn unit(book: &Book, issue: u32, k: u32) -> UnitAnswer {
    ask_unit(book, issue, k, Soundness::Asked)
}

/// The k-th unit of an issue, on a book known to be sound.
pub fn unit_on_sound(book: &Book, issue: u32, k: u32) -> UnitAnswer {
    ask_unit(book, issue, k, Soundness::Known)
}

/// The reason the k-th unit of an issue, k from 0, has not come.
pub fn status(book: &Book, issue: u32, k: u32) -> StatusAnswer {
    status::status(book, issue, k, Soundness::Asked).into()
}

/// The reason a unit has not come, on a book known to be sound.
pub fn status_on_sound(book: &Book, issue: u32, k: u32) -> StatusAnswer {
    status::status(book, issue, k, Soundness::Known).into()
}

/// trade: from's net falls, to's rises.
pub fn trade(book: &mut Book, issue: u32, from: u32, to: u32, lots: u32) -> Answer {
    taking::trade(book, issue, from, to, lots, Soundness::Asked).into()
}

/// trade on a book known to be sound.
pub fn trade_on_sound(book: &mut Book, issue: u32, from: u32, to: u32, lots: u32) -> Answer {
    taking::trade(book, issue, from, to, lots, Soundness::Known).into()
}

/// close: to Settling.
pub fn close(book: &mut Book) -> Answer {
    taking::close(book, Soundness::Asked).into()
}

/// close on a book known to be sound.
pub fn close_on_sound(book: &mut Book) -> Answer {
    taking::close(book, Soundness::Known).into()
}

/// deliver: delivered rises, next units are handed over whole; writes 10s.
pub fn deliver(book: &mut Book, issue: u32, account: u32, lots: u32, output: &mut [u32]) -> Answer {
    settling::deliver(book, issue, account, lots, output, Soundness::Asked).into()
}

/// deliver on a book known to be sound.
pub fn deliver_on_sound(
    book: &mut Book,
    issue: u32,
    account: u32,
    lots: u32,
    output: &mut [u32],
) -> Answer {
    settling::deliver(book, issue, account, lots, output, Soundness::Known).into()
}

/// ask: the ticket for a lift of the issue's unit of this number; changes nothing.
pub fn ask(book: &Book, issue: u32, unit: u32) -> AskAnswer {
    lifting::ask(book, issue, unit, Soundness::Asked).into()
}

/// ask on a book known to be sound.
pub fn ask_on_sound(book: &Book, issue: u32, unit: u32) -> AskAnswer {
    lifting::ask(book, issue, unit, Soundness::Known).into()
}

/// commit: the ticket's unit moves before all unhanded ones; what stock covers is handed over;
/// writes 10s.
pub fn commit(book: &mut Book, ticket: &Ticket, output: &mut [u32]) -> Answer {
    lifting::commit(book, ticket, output, Soundness::Asked).into()
}

/// commit on a book known to be sound.
pub fn commit_on_sound(book: &mut Book, ticket: &Ticket, output: &mut [u32]) -> Answer {
    lifting::commit(book, ticket, output, Soundness::Known).into()
}

/// cutoff: remaining stock goes to the next unit, what units lack is failed; writes 10s and 12s.
pub fn cutoff(book: &mut Book, output: &mut [u32]) -> Answer {
    settling::cutoff(book, output, Soundness::Asked).into()
}

/// cutoff on a book known to be sound.
pub fn cutoff_on_sound(book: &mut Book, output: &mut [u32]) -> Answer {
    settling::cutoff(book, output, Soundness::Known).into()
}

/// resolve: entries of that issue from that account are met in ledger order; writes 11s.
pub fn resolve(book: &mut Book, issue: u32, account: u32, lots: u32, output: &mut [u32]) -> Answer {
    ledger::resolve(book, issue, account, lots, output, Soundness::Asked).into()
}

/// resolve on a book known to be sound.
pub fn resolve_on_sound(
    book: &mut Book,
    issue: u32,
    account: u32,
    lots: u32,
    output: &mut [u32],
) -> Answer {
    ledger::resolve(book, issue, account, lots, output, Soundness::Known).into()
}

/// pair-off: the account's first entry in and first entry out fall together, step by step.
pub fn pair_off(book: &mut Book, issue: u32, account: u32) -> PairOffAnswer {
    ledger::pair_off(book, issue, account, Soundness::Asked).into()
}

/// pair-off on a book known to be sound.
pub fn pair_off_on_sound(book: &mut Book, issue: u32, account: u32) -> PairOffAnswer {
    ledger::pair_off(book, issue, account, Soundness::Known).into()
}

/// roll: each entry is charged; nets, delivered lots, lifts and counts are 0, day rises by 1, to
/// Taking.
pub fn roll(book: &mut Book, days: u32, rate: u32, quotes: &[u32]) -> Answer {
    ledger::roll(book, days, rate, quotes, Soundness::Asked).into()
}

/// roll on a book known to be sound.
pub fn roll_on_sound(book: &mut Book, days: u32, rate: u32, quotes: &[u32]) -> Answer {
    ledger::roll(book, days, rate, quotes, Soundness::Known).into()
}

/// mark: the issue takes even lots only, or any lots again where the mark is 0; in any phase.
pub fn mark(book: &mut Book, issue: u32, mark: u32) -> Answer {
    settings::mark(book, issue, mark, Soundness::Asked).into()
}

/// mark on a book known to be sound.
pub fn mark_on_sound(book: &mut Book, issue: u32, mark: u32) -> Answer {
    settings::mark(book, issue, mark, Soundness::Known).into()
}

/// turn: from this day on full units are dealt in turn; in any phase.
pub fn turn(book: &mut Book, day: u32) -> Answer {
    settings::turn(book, day, Soundness::Asked).into()
}

/// turn on a book known to be sound.
pub fn turn_on_sound(book: &mut Book, day: u32) -> Answer {
    settings::turn(book, day, Soundness::Known).into()
}

/// The unit question: 2, 4.
fn ask_unit(book: &Book, issue: u32, k: u32, soundness: Soundness) -> UnitAnswer {
    let none = UnitAnswer { number: 0, found: false, account: 0, lots: 0 };
    match book_is_sound(book, soundness).and_then(|()| issue_in_range(issue)) {
        Err(number) => UnitAnswer { number, ..none },
        Ok(issue) => kth_unit(book, issue, k).map_or(none, |unit| UnitAnswer {
            number: 0,
            found: true,
            account: unit.account,
            lots: unit.lots,
        }),
    }
}
