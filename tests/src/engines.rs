//! Both engines on the same steps: answers, whole books and every word of the output compared.

use crate::convert::{library_book, library_ticket, same_numbers};
use crate::requests::instruction;
use crate::steps::{Call, Step};
use reference::book::{place, Book, ACCOUNTS, ENTRIES, ISSUES};
use reference::calls::{self, Status, Ticket};
use settlement_day::{raw, LIFT_WORDS};

/// The words before and after a lent output, which no call may touch.
const MARGIN: usize = 8;

/// An answer in plain numbers: the refusal number and every other number, 0 where there is none.
///
/// For `sound` the number is 1 or 0. For `unit` the others are found, account and lots; for `status`
/// the case and its lots; for `ask` the six of the ticket; for the calls the count (for pair-off, of steps) and the lots cancelled.
#[derive(Clone, Copy, Debug, PartialEq, Eq)]
pub struct Answer {
    pub number: u32,
    pub others: [u64; 6],
}

/// The second engine's book and the library's.
pub struct Engines {
    pub reference: Book,
    /// The second engine's book as it was before the last step.
    pub before: Book,
    library: settlement_day::Book,
    /// The words of the last call's output after it, margins included; the library's are the same.
    output: Vec<u32>,
    /// How many calls were compared.
    pub compared: u64,
}

impl Engines {
    /// Both books fresh.
    pub fn new() -> Engines {
        Engines::of(&Book::fresh())
    }

    /// Both books as this one.
    pub fn of(book: &Book) -> Engines {
        Engines {
            reference: book.clone(),
            before: book.clone(),
            library: library_book(book),
            output: Vec::new(),
            compared: 0,
        }
    }

    /// Makes one step on both books; what differs is told in a line for each engine.
    pub fn run(&mut self, step: &Step) -> Result<Answer, [String; 2]> {
        self.before.clone_from(&self.reference);
        match step {
            Step::Set(edit) => {
                edit.apply(&mut self.reference);
                self.library = library_book(&self.reference);
                Ok(plain(0, &[]))
            }
            Step::Call(call) => self.call(call),
        }
    }

    /// Puts a call to both engines. A refusal leaves book and output as they came, and 0 in every
    /// other number.
    fn call(&mut self, call: &Call) -> Result<Answer, [String; 2]> {
        self.compared += 1;
        let (mut output, mut other) = (lent(call), lent(call));
        let answer = by_reference(&mut self.reference, call, inner(&mut output));
        let library = by_library(&mut self.library, call, inner(&mut other));
        let came = (library, &self.library, other.as_slice());
        if *call == Call::Sound || answer.number != 0 {
            let nothing = plain(answer.number, &[]);
            same("as the call came", (nothing, &self.before, &lent(call)), came)?;
        }
        same("library", (answer, &self.reference, &output), came)?;
        self.output = output;
        Ok(answer)
    }

    /// The first so many records of the last call's output, each its two words.
    pub fn records(&self, count: usize) -> Vec<[u32; 2]> {
        let words = self.output.get(MARGIN..).unwrap_or_default();
        words.chunks_exact(2).take(count).map(|two| [two[0], two[1]]).collect()
    }
}

impl Default for Engines {
    fn default() -> Engines {
        Engines::new()
    }
}

/// The output that a call is lent, with a margin on both sides, filled with a pattern.
fn lent(call: &Call) -> Vec<u32> {
    let words = match *call {
        Call::Deliver { out, .. }
        | Call::Commit { out, .. }
        | Call::Cutoff { out }
        | Call::Resolve { out, .. } => out,
        _ => return Vec::new(),
    };
    pattern(words + 2 * MARGIN)
}

/// Words that no call writes at their places: each unlike its neighbours.
pub fn pattern(words: usize) -> Vec<u32> {
    (0..words as u32).map(|at| at.wrapping_mul(0x9e37_79b9) ^ 0x5bd1_e995).collect()
}

/// The part of the output between the margins.
fn inner(output: &mut [u32]) -> &mut [u32] {
    let end = output.len().saturating_sub(MARGIN);
    output.get_mut(MARGIN..end).unwrap_or_default()
}

/// Compares answer, book and output; what differs is told.
fn same(
    form: &str,
    (answer, book, output): (Answer, &Book, &[u32]),
    (answer2, book2, output2): (Answer, &settlement_day::Book, &[u32]),
) -> Result<(), [String; 2]> {
    let tell = |one: String, other: String| Err([one, format!("{other} ({form})")]);
    if answer != answer2 {
        return tell(answer_text(answer), answer_text(answer2));
    }
    if !same_numbers(book, book2) {
        let [one, other] = book_difference(&library_book(book), book2);
        return tell(one, other);
    }
    if let Some(at) = (0..output.len()).find(|&at| output[at] != output2[at]) {
        let word = |word| format!("output word {} is {word:08x}", at as i64 - MARGIN as i64);
        return tell(word(output[at]), word(output2[at]));
    }
    Ok(())
}

/// An answer for people.
fn answer_text(answer: Answer) -> String {
    let others = answer.others.map(|other| other.to_string()).join(" ");
    format!("number {}, then {others}", answer.number)
}

/// The first field in which two books differ.
pub fn book_difference(one: &settlement_day::Book, other: &settlement_day::Book) -> [String; 2] {
    let both = |tell: &dyn Fn(&settlement_day::Book) -> String| [tell(one), tell(other)];
    let differs = |texts: &[String; 2]| texts[0] != texts[1];
    let header = both(&|book| {
        let (entries, turn, marks) = (book.entries, book.turn, book.marks);
        let days = format!("day {}, {:?}, change-over day {turn}", book.day, book.phase);
        format!("{days}, {entries} entries, marks {marks:?}")
    });
    if differs(&header) {
        return header;
    }
    for (issue, account) in (0..ISSUES).flat_map(|i| (0..ACCOUNTS).map(move |a| (i, a))) {
        let texts = both(&|book| {
            let (net, given) =
                (book.nets[place(issue, account)], book.delivered[place(issue, account)]);
            format!("issue {issue} account {account}: net {net}, delivered {given}")
        });
        if differs(&texts) {
            return texts;
        }
    }
    for issue in 0..ISSUES {
        let texts = both(&|book| {
            let words = &book.lifts[issue * LIFT_WORDS..][..LIFT_WORDS];
            format!("issue {issue}: words of lifts {words:?}")
        });
        if differs(&texts) {
            return texts;
        }
    }
    for account in 0..ACCOUNTS {
        let texts = both(&|book| format!("account {account}: charge {}", book.charges[account]));
        if differs(&texts) {
            return texts;
        }
    }
    let at = (0..ENTRIES).find(|&at| one.entry(at) != other.entry(at)).unwrap_or(0);
    both(&|book| format!("entry {at}: {:?}", book.entry(at)))
}

/// The second engine's answer.
pub fn by_reference(book: &mut Book, call: &Call, out: &mut [u32]) -> Answer {
    match *call {
        Call::Sound => plain(u32::from(book.sound()), &[]),
        Call::Unit { issue, k } => {
            let unit = calls::unit(book, issue, k);
            plain(unit.number, &[u64::from(unit.found), unit.account.into(), unit.lots.into()])
        }
        Call::Status { issue, k } => told(calls::status(book, issue, k)),
        Call::Trade { issue, from, to, lots } => counted(calls::trade(book, issue, from, to, lots)),
        Call::Close => counted(calls::close(book)),
        Call::Deliver { issue, account, lots, .. } => {
            counted(calls::deliver(book, issue, account, lots, out))
        }
        Call::Ask { issue, unit } => asked(calls::ask(book, issue, unit)),
        Call::Commit { ref ticket, .. } => counted(calls::commit(book, ticket, out)),
        Call::Cutoff { .. } => counted(calls::cutoff(book, out)),
        Call::Resolve { issue, account, lots, .. } => {
            counted(calls::resolve(book, issue, account, lots, out))
        }
        Call::PairOff { issue, account } => {
            let answer = calls::pair_off(book, issue, account);
            plain(answer.number, &[answer.steps.into(), answer.lots])
        }
        Call::Roll { days, rate, ref quotes } => counted(calls::roll(book, days, rate, quotes)),
        Call::Mark { issue, mark } => counted(calls::mark(book, issue, mark)),
        Call::Turn { day } => counted(calls::turn(book, day)),
    }
}

/// The second engine's answer on a book known to be sound; `sound` is asked all the same.
pub fn by_reference_on_sound(book: &mut Book, call: &Call, out: &mut [u32]) -> Answer {
    match *call {
        Call::Sound => by_reference(book, call, out),
        Call::Unit { issue, k } => {
            let unit = calls::unit_on_sound(book, issue, k);
            plain(unit.number, &[u64::from(unit.found), unit.account.into(), unit.lots.into()])
        }
        Call::Status { issue, k } => told(calls::status_on_sound(book, issue, k)),
        Call::Trade { issue, from, to, lots } => {
            counted(calls::trade_on_sound(book, issue, from, to, lots))
        }
        Call::Close => counted(calls::close_on_sound(book)),
        Call::Deliver { issue, account, lots, .. } => {
            counted(calls::deliver_on_sound(book, issue, account, lots, out))
        }
        Call::Ask { issue, unit } => asked(calls::ask_on_sound(book, issue, unit)),
        Call::Commit { ref ticket, .. } => counted(calls::commit_on_sound(book, ticket, out)),
        Call::Cutoff { .. } => counted(calls::cutoff_on_sound(book, out)),
        Call::Resolve { issue, account, lots, .. } => {
            counted(calls::resolve_on_sound(book, issue, account, lots, out))
        }
        Call::PairOff { issue, account } => {
            let answer = calls::pair_off_on_sound(book, issue, account);
            plain(answer.number, &[answer.steps.into(), answer.lots])
        }
        Call::Roll { days, rate, ref quotes } => {
            counted(calls::roll_on_sound(book, days, rate, quotes))
        }
        Call::Mark { issue, mark } => counted(calls::mark_on_sound(book, issue, mark)),
        Call::Turn { day } => counted(calls::turn_on_sound(book, day)),
    }
}

/// The library's answer.
pub fn by_library(book: &mut settlement_day::Book, call: &Call, out: &mut [u32]) -> Answer {
    let answer = match *call {
        Call::Sound => return plain(raw::sound(&book.columns()), &[]),
        Call::Unit { issue, k } => {
            let unit = raw::unit(&book.columns(), issue, k);
            let others = [unit.found.into(), unit.account.into(), unit.lots.into()];
            return plain(unit.refusal, &others);
        }
        Call::Status { issue, k } => {
            let status = raw::status(&book.columns(), issue, k);
            return plain(status.refusal, &[status.case.into(), status.lots.into()]);
        }
        Call::Ask { issue, unit } => {
            let asked = raw::ask(&book.columns(), issue, unit);
            return plain(asked.refusal, &asked.ticket.map(u64::from));
        }
        Call::Commit { ref ticket, .. } => {
            raw::commit(&mut book.columns_mut(), &library_ticket(ticket).numbers(), out)
        }
        Call::Roll { days, rate, ref quotes } => {
            let roll = settlement_day::Instruction::Roll { days, rate };
            raw::call(&mut book.columns_mut(), &roll.fields(), quotes, out)
        }
        ref call => raw::call(&mut book.columns_mut(), &instruction(call).fields(), &[], out),
    };
    plain(answer.refusal, &[answer.count as u64, answer.cancelled])
}

/// An answer of these numbers, and 0 after them.
pub fn plain(number: u32, first: &[u64]) -> Answer {
    let mut others = [0; 6];
    others[..first.len()].copy_from_slice(first);
    Answer { number, others }
}

/// The second engine's answer with the number of its case and the lots: 1 handed, 2 waiting, 3 partly
/// failed, 4 wholly failed, 0 on a refusal.
fn told(answer: calls::StatusAnswer) -> Answer {
    let (case, lots) = match answer.status {
        None => (0, 0),
        Some(Status::Handed) => (1, 0),
        Some(Status::Waiting(lots)) => (2, lots),
        Some(Status::PartlyFailed(lots)) => (3, lots),
        Some(Status::WhollyFailed) => (4, 0),
    };
    plain(answer.number, &[case, lots.into()])
}

/// The second engine's answer with its ticket.
fn asked(answer: calls::AskAnswer) -> Answer {
    let Ticket { issue, unit, account, lots, day, count } = answer.ticket;
    plain(answer.number, &[issue, unit, account, lots, day, count].map(u64::from))
}

/// The second engine's answer with its count.
fn counted(answer: calls::Answer) -> Answer {
    plain(answer.number, &[answer.count.into()])
}
