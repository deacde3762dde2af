//! The questions and the calls on a book. Each asks every question of its own in the paper's order; a
//! refusal changes nothing, neither book nor output.

use crate::{raw, Book, Instruction, Refusal};

/// What a call did.
#[derive(Clone, Copy, Debug, Default, PartialEq, Eq)]
pub struct Done {
    /// The records that it wrote to the output; for pair-off, its steps.
    pub count: usize,
    /// The lots that a pair-off cancelled.
    pub cancelled: u64,
}

impl raw::Answer {
    /// What was done, or the refusal.
    pub fn done(self) -> Result<Done, Refusal> {
        let raw::Answer { refusal, count, cancelled } = self;
        Refusal::check(refusal).map(|()| Done { count, cancelled })
    }
}

/// A unit: the account that it is due to, and its lots.
#[derive(Clone, Copy, Debug, PartialEq, Eq)]
pub struct Unit {
    /// The account.
    pub account: u32,
    /// The lots.
    pub lots: u32,
}

impl raw::UnitAnswer {
    /// The unit, none where there is none, or the refusal.
    pub fn unit(self) -> Result<Option<Unit>, Refusal> {
        let raw::UnitAnswer { refusal, found, account, lots } = self;
        Refusal::check(refusal).map(|()| (found == 1).then_some(Unit { account, lots }))
    }
}

/// Why a unit has not come, or that it has.
#[derive(Clone, Copy, Debug, PartialEq, Eq)]
pub enum Status {
    /// It is handed.
    Handed,
    /// It waits: with so many more lots delivered, and no lift between, it is handed.
    Waiting {
        /// So many.
        lots: u32,
    },
    /// At the cutoff the stock went to it, and it lacked so many lots.
    PartlyFailed {
        /// So many.
        lots: u32,
    },
    /// At the cutoff it lacked all its lots.
    WhollyFailed,
}

impl raw::StatusAnswer {
    /// What is told of the unit, or the refusal.
    pub fn status(self) -> Result<Status, Refusal> {
        let raw::StatusAnswer { refusal, case, lots } = self;
        Refusal::check(refusal)?;
        match case {
            1 => Ok(Status::Handed),
            2 => Ok(Status::Waiting { lots }),
            3 => Ok(Status::PartlyFailed { lots }),
            4 => Ok(Status::WhollyFailed),
            _ => Err(Refusal::Other(refusal)),
        }
    }
}

/// A ticket for a lift: issue and unit number, the unit's account and lots, the day, and the count of
/// that day's accepted deliveries and lifts in the issue.
#[derive(Clone, Copy, Debug, Default, PartialEq, Eq)]
pub struct Ticket {
    /// The issue.
    pub issue: u32,
    /// The unit's number, from 0 in the issue's order.
    pub unit: u32,
    /// The account that the unit is due to.
    pub account: u32,
    /// The unit's lots.
    pub lots: u32,
    /// The day.
    pub day: u32,
    /// The count of that day's accepted deliveries and lifts in the issue.
    pub count: u32,
}

impl Ticket {
    /// Its numbers, as the library takes them.
    pub fn numbers(&self) -> raw::TicketNumbers {
        [self.issue, self.unit, self.account, self.lots, self.day, self.count]
    }

    /// The ticket of these numbers.
    pub fn of_numbers([issue, unit, account, lots, day, count]: raw::TicketNumbers) -> Ticket {
        Ticket { issue, unit, account, lots, day, count }
    }
}

impl raw::AskAnswer {
    /// The ticket, or the refusal.
    pub fn ticket(self) -> Result<Ticket, Refusal> {
        Refusal::check(self.refusal).map(|()| Ticket::of_numbers(self.ticket))
    }
}

/// Is the book sound?
#[must_use = "a damaged book would be missed"]
pub fn sound(book: &Book) -> bool {
    raw::sound(&book.columns()) == 1
}

/// The k-th unit of an issue, k from 0, in any phase; none where there is no such unit.
pub fn unit(book: &Book, issue: u32, k: u32) -> Result<Option<Unit>, Refusal> {
    raw::unit(&book.columns(), issue, k).unit()
}

/// Why the k-th unit of an issue, k from 0, has not come, in Settling and in Cut; the order is that as
/// lifted. After the cutoff, what it lacked then is told, whatever was resolved since.
pub fn status(book: &Book, issue: u32, k: u32) -> Result<Status, Refusal> {
    raw::status(&book.columns(), issue, k).status()
}

/// ask: the ticket for a lift of the issue's unit of this number, in Settling; changes nothing.
pub fn ask(book: &Book, issue: u32, unit: u32) -> Result<Ticket, Refusal> {
    raw::ask(&book.columns(), issue, unit).ticket()
}

/// commit: the ticket's unit moves before all unhanded ones, and what stock covers is handed over;
/// writes 10s to the output, which has at least 4,096 words.
pub fn commit(book: &mut Book, ticket: &Ticket, out: &mut [u32]) -> Result<Done, Refusal> {
    raw::commit(&mut book.columns_mut(), &ticket.numbers(), out).done()
}

/// The call of an instruction. Only roll looks at the quotes, and only deliver, cutoff and resolve
/// at the output, which has at least 4,096 words for them; for the others both may be empty.
pub fn call(
    book: &mut Book,
    instruction: &Instruction,
    quotes: &[u32],
    out: &mut [u32],
) -> Result<Done, Refusal> {
    raw::call(&mut book.columns_mut(), &instruction.fields(), quotes, out).done()
}

/// trade: from's net falls, to's rises.
pub fn trade(book: &mut Book, issue: u32, from: u32, to: u32, lots: u32) -> Result<Done, Refusal> {
    call(book, &Instruction::Trade { issue, from, to, lots }, &[], &mut [])
}

/// close: to Settling.
pub fn close(book: &mut Book) -> Result<Done, Refusal> {
    call(book, &Instruction::Close, &[], &mut [])
}

/// deliver: delivered rises, next units are handed over whole; writes 10s.
pub fn deliver(
    book: &mut Book,
    issue: u32,
    account: u32,
    lots: u32,
    out: &mut [u32],
) -> Result<Done, Refusal> {
    call(book, &Instruction::Deliver { issue, account, lots }, &[], out)
}

/// cutoff: remaining stock goes to the next unit, what units lack is failed; writes 10s and 12s.
pub fn cutoff(book: &mut Book, out: &mut [u32]) -> Result<Done, Refusal> {
    call(book, &Instruction::Cutoff, &[], out)
}

/// resolve: entries of that issue from that account are met in ledger order; writes 11s.
pub fn resolve(
    book: &mut Book,
    issue: u32,
    account: u32,
    lots: u32,
    out: &mut [u32],
) -> Result<Done, Refusal> {
    call(book, &Instruction::Resolve { issue, account, lots }, &[], out)
}

/// mark: the issue takes even lots only, or any lots again where the mark is 0; in any phase, while it
/// has no net and no entry.
pub fn mark(book: &mut Book, issue: u32, mark: u32) -> Result<Done, Refusal> {
    call(book, &Instruction::Mark { issue, mark }, &[], &mut [])
}

/// turn: from this day on full units are dealt one to each receiver a round; in any phase, while the day
/// is after today and the new order is not in force.
pub fn turn(book: &mut Book, day: u32) -> Result<Done, Refusal> {
    call(book, &Instruction::Turn { day }, &[], &mut [])
}

/// pair-off: the account's first entry in and first entry out fall together; the count is of steps.
pub fn pair_off(book: &mut Book, issue: u32, account: u32) -> Result<Done, Refusal> {
    call(book, &Instruction::PairOff { issue, account }, &[], &mut [])
}

/// roll, with sixteen prices and then sixteen accrued amounts: each entry is charged; nets, delivered
/// lots, lifts and counts are 0, day rises by 1, to Taking.
pub fn roll(book: &mut Book, days: u32, rate: u32, quotes: &[u32]) -> Result<Done, Refusal> {
    call(book, &Instruction::Roll { days, rate }, quotes, &mut [])
}

#[cfg(test)]
mod tests {
    use super::*;
    use crate::OUTPUT_WORDS;

    /// Makes a call by its own function and by its instruction, on copies of a book: both must give the
    /// same answer, book and output. The book after it.
    fn by_both(
        book: &Book,
        instruction: Instruction,
        own: impl Fn(&mut Book, &mut [u32]) -> Result<Done, Refusal>,
    ) -> Book {
        let (mut one, mut other) = (book.clone(), book.clone());
        let (mut out, mut words) = ([7; OUTPUT_WORDS], [7; OUTPUT_WORDS]);
        let mut quotes = [5; 32];
        quotes[..16].fill(100_000);
        let answer = call(&mut one, &instruction, &quotes, &mut out);
        assert!(answer.is_ok(), "{instruction:?}: {answer:?}");
        assert_eq!(own(&mut other, &mut words), answer, "{instruction:?}");
        assert!(one == other && out == words && one != *book, "{instruction:?}");
        one
    }

    #[test]
    fn each_call_by_its_name_is_the_call_of_its_instruction() {
        use Instruction::*;
        let book = by_both(&Book::fresh(), Mark { issue: 4, mark: 1 }, |book, _| mark(book, 4, 1));
        let book = by_both(&book, Turn { day: 9 }, |book, _| turn(book, 9));
        let book = by_both(&book, Trade { issue: 3, from: 8, to: 1, lots: 150 }, |book, _| {
            trade(book, 3, 8, 1, 150)
        });
        let book = by_both(&book, Trade { issue: 3, from: 9, to: 8, lots: 40 }, |book, _| {
            trade(book, 3, 9, 8, 40)
        });
        let book = by_both(&book, Close, |book, _| close(book));
        let book = by_both(&book, Deliver { issue: 3, account: 8, lots: 20 }, |book, out| {
            deliver(book, 3, 8, 20, out)
        });
        let book = by_both(&book, Cutoff, |book, out| cutoff(book, out));
        let book = by_both(&book, Resolve { issue: 3, account: 8, lots: 11 }, |book, out| {
            resolve(book, 3, 8, 11, out)
        });
        let mut quotes = [5; 32];
        quotes[..16].fill(100_000);
        let book =
            by_both(&book, Roll { days: 2, rate: 300 }, |book, _| roll(book, 2, 300, &quotes));
        let mut paired = book.clone();
        (paired.issues[0], paired.froms[0], paired.tos[0]) = (3, 2, 1);
        (paired.issues[1], paired.froms[1], paired.tos[1]) = (3, 1, 6);
        (paired.lots[0], paired.lots[1], paired.entries) = (30, 20, 2);
        by_both(&paired, PairOff { issue: 3, account: 1 }, |book, _| pair_off(book, 3, 1));
    }
}
