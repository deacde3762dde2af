//! The journal of calls: a record of 36 words for each, written and read.

use crate::declarations::{day_journal_call, day_journal_commit, day_journal_read};
use crate::raw::TicketNumbers;
use crate::{calls, tape, Book, Fields, Instruction, Refusal, Ticket};

/// The words of a record: its number, 33 of a call, two of checksum.
pub const RECORD_WORDS: usize = 36;
/// The kind of a commit's record, which the tape's reader refuses.
pub const COMMIT: u32 = 15;

/// A record's words.
pub type Record = [u32; RECORD_WORDS];

/// What reading answers, as the library's function gives it: the reason, 0 where a record is read, and
/// its kind and numbers, 0 where none is.
#[repr(C)]
#[derive(Clone, Copy, Debug, PartialEq, Eq)]
pub struct Journalled {
    /// The reason, 0 where a record is read.
    pub reason: u32,
    /// Its kind.
    pub kind: u32,
    /// Its numbers.
    pub numbers: [u32; 6],
}

/// A call that a record tells: an instruction, with the quotes of a roll, or the commit of a ticket.
#[derive(Clone, Debug, PartialEq, Eq)]
pub enum Call {
    /// An instruction, with the quotes of a roll.
    Instruction(Instruction, Vec<u32>),
    /// The commit of a ticket.
    Commit(Ticket),
}

/// What stands at the front of the rest of a journal.
#[derive(Clone, Debug, PartialEq, Eq)]
pub enum Next {
    /// A call.
    Call(Call),
    /// No word is left.
    Nothing,
    /// The record is not whole or wrong, and nothing stands behind it.
    Torn,
    /// The record is wrong, and something stands behind it.
    Damaged,
}

/// How a journal ends: whole, with a torn record, or at a damaged one, by its number.
#[derive(Clone, Copy, Debug, PartialEq, Eq)]
pub enum Ending {
    /// Whole.
    Whole,
    /// With a record that is not whole or wrong, and nothing behind it.
    Torn,
    /// At a wrong record with others behind it, by its number.
    Damaged(u32),
}

/// The record of a call; none where a number does not fit its bits.
pub fn record(number: u32, call: &Call) -> Option<Record> {
    let mut out = [0; RECORD_WORDS];
    let reason = match call {
        Call::Instruction(instruction, quotes) => {
            write_call(number, &instruction.fields(), quotes, &mut out)
        }
        Call::Commit(ticket) => write_commit(number, &ticket.numbers(), &mut out),
    };
    (reason == 0).then_some(out)
}

/// The record with this number, at the front of the words from there to the journal's end.
pub fn read(number: u32, words: &[u32]) -> Next {
    let Journalled { reason, kind, numbers } = read_numbers(number, words);
    match reason {
        0 => call_of(kind, numbers, words).map_or(Next::Damaged, Next::Call),
        1 => Next::Nothing,
        2 => Next::Torn,
        _ => Next::Damaged,
    }
}

/// The calls of a journal up to the first record that is not read, and how it ends.
pub fn read_all(words: &[u32]) -> (Vec<Call>, Ending) {
    let mut calls = Vec::new();
    let mut rest = words;
    for number in 0..=u32::MAX {
        match read(number, rest) {
            Next::Call(call) => calls.push(call),
            Next::Nothing => break,
            Next::Torn => return (calls, Ending::Torn),
            Next::Damaged => return (calls, Ending::Damaged(number)),
        }
        rest = rest.get(RECORD_WORDS..).unwrap_or_default();
    }
    (calls, Ending::Whole)
}

/// Makes the call of a record on a book.
pub fn replay(book: &mut Book, call: &Call, out: &mut [u32]) -> Result<calls::Done, Refusal> {
    match call {
        Call::Instruction(instruction, quotes) => calls::call(book, instruction, quotes, out),
        Call::Commit(ticket) => calls::commit(book, ticket, out),
    }
}

/// The call of a record's numbers; its words have the quotes of a roll.
fn call_of(kind: u32, numbers: [u32; 6], words: &[u32]) -> Option<Call> {
    if kind == COMMIT {
        return Some(Call::Commit(Ticket::of_numbers(numbers)));
    }
    let [a, b, c, d, ..] = numbers;
    let instruction = Instruction::of_fields([kind, a, b, c, d])?;
    let quotes = match instruction {
        Instruction::Roll { .. } => tape::quotes(words.get(1..).unwrap_or_default()).to_vec(),
        _ => Vec::new(),
    };
    Some(Call::Instruction(instruction, quotes))
}

/// Writes the record of an instruction given by its fields: 0, or 1 (fewer than 36 words) or 4 (a number
/// does not fit) with the output as it came.
pub fn write_call(number: u32, fields: &Fields, quotes: &[u32], out: &mut [u32]) -> u32 {
    let [kind, a, b, c, d] = *fields;
    let (words, length) = (out.as_mut_ptr(), out.len());
    // SAFETY: quotes and output are given with their lengths and live through the call; the output, lent
    // as `&mut`, overlaps the quotes nowhere.
    unsafe {
        day_journal_call(number, kind, a, b, c, d, quotes.as_ptr(), quotes.len(), words, length)
    }
}

/// Writes the record of a ticket's commit: 0, or 1 with the output as it came.
pub fn write_commit(number: u32, ticket: &TicketNumbers, out: &mut [u32]) -> u32 {
    // SAFETY: the ticket has six numbers, and the output is given with its length; lent as `&mut`, it
    // overlaps them nowhere.
    unsafe { day_journal_commit(number, ticket, out.as_mut_ptr(), out.len()) }
}

/// Reads the record with this number, in plain numbers.
pub fn read_numbers(number: u32, words: &[u32]) -> Journalled {
    // SAFETY: the library reads the words within the length given beside them.
    unsafe { day_journal_read(number, words.as_ptr(), words.len()) }
}

#[cfg(test)]
mod tests {
    use super::{read_all, record, replay, write_call, write_commit, Call, Ending, RECORD_WORDS};
    use crate::{calls, tape, Book, Instruction, Refusal, Ticket, OUTPUT_WORDS, QUOTES};

    /// A trade, a close, a deliver, a commit, a cutoff and a roll, with a call that is refused.
    fn calls_of_a_day() -> Vec<Call> {
        let told = |instruction| Call::Instruction(instruction, Vec::new());
        let mut quotes = vec![100_000; QUOTES / 2];
        quotes.resize(QUOTES, 17);
        vec![
            told(Instruction::Mark { issue: 3, mark: 1 }),
            told(Instruction::Trade { issue: 0, from: 4, to: 1, lots: 230_000 }),
            told(Instruction::Trade { issue: 0, from: 5, to: 2, lots: 50_000 }),
            told(Instruction::Turn { day: 9 }),
            told(Instruction::Close),
            told(Instruction::Deliver { issue: 0, account: 4, lots: 60_000 }),
            told(Instruction::Deliver { issue: 0, account: 9, lots: 1 }),
            Call::Commit(Ticket { issue: 0, unit: 2, account: 2, lots: 50_000, day: 0, count: 1 }),
            told(Instruction::Cutoff),
            told(Instruction::Resolve { issue: 0, account: 4, lots: 1_000 }),
            told(Instruction::PairOff { issue: 0, account: 2 }),
            Call::Instruction(Instruction::Roll { days: 1, rate: 300 }, quotes),
        ]
    }

    fn journal_of(calls: &[Call]) -> Vec<u32> {
        let records = (0..).zip(calls).map(|(number, call)| record(number, call));
        records.flat_map(|words| words.expect("each number fits")).collect()
    }

    #[test]
    fn a_day_is_read_back_and_gives_its_book_call_by_call() {
        let calls = calls_of_a_day();
        let words = journal_of(&calls);
        let (read, ending) = read_all(&words);
        assert_eq!((&read, ending), (&calls, Ending::Whole));
        let mut out = [0; OUTPUT_WORDS];
        let (mut made, mut again) = (Book::fresh(), Book::fresh());
        let mut refused = 0;
        for (call, told) in calls.iter().zip(&read) {
            let answer = match call {
                Call::Instruction(instruction, quotes) => {
                    calls::call(&mut made, instruction, quotes, &mut out)
                }
                Call::Commit(ticket) => calls::commit(&mut made, ticket, &mut out),
            };
            refused += u32::from(answer.is_err());
            assert_eq!(replay(&mut again, told, &mut out), answer);
            assert_eq!(made, again);
        }
        assert_eq!((refused, again.day), (1, 1));
    }

    #[test]
    fn a_cut_journal_is_torn_in_its_last_record() {
        let calls = &calls_of_a_day()[..3];
        let words = journal_of(calls);
        for cut in 0..words.len() {
            let whole = cut / RECORD_WORDS;
            let ending = if cut % RECORD_WORDS == 0 { Ending::Whole } else { Ending::Torn };
            assert_eq!(read_all(&words[..cut]), (calls[..whole].to_vec(), ending));
        }
    }

    #[test]
    fn a_changed_word_is_seen_wherever_it_stands() {
        let calls = &calls_of_a_day()[6..9];
        let words = journal_of(calls);
        for place in 0..words.len() {
            for bit in 0..32 {
                let mut changed = words.clone();
                changed[place] ^= 1 << bit;
                let number = place / RECORD_WORDS;
                let ending = match number {
                    2 => Ending::Torn,
                    0 => Ending::Damaged(0),
                    _ => Ending::Damaged(1),
                };
                assert_eq!(read_all(&changed), (calls[..number].to_vec(), ending));
            }
        }
    }

    #[test]
    fn a_lost_or_doubled_record_is_seen() {
        let calls = &calls_of_a_day()[..3];
        let words = journal_of(calls);
        assert_eq!(read_all(&words[RECORD_WORDS..]), (vec![], Ending::Damaged(0)));
        let doubled = [&words[..RECORD_WORDS], &words].concat();
        assert_eq!(read_all(&doubled), (calls[..1].to_vec(), Ending::Damaged(1)));
    }

    #[test]
    fn a_refused_record_leaves_the_output() {
        let mut out = [7; RECORD_WORDS];
        assert_eq!(write_call(0, &[1, 16, 0, 0, 0], &[], &mut out), 4);
        assert_eq!(write_call(0, &[15, 0, 0, 0, 0], &[], &mut out), 4);
        assert_eq!(write_call(0, &[7, 1, 0, 0, 0], &[0; 31], &mut out), 4);
        assert_eq!(write_call(0, &[5, 0, 0, 0, 0], &[], &mut out[1..]), 1);
        assert_eq!(write_commit(0, &[1; 6], &mut out[1..]), 1);
        assert_eq!(out, [7; RECORD_WORDS]);
        let mut longer = [7; RECORD_WORDS + 1];
        assert_eq!(write_commit(2, &[0, 2, 3, 50_000, 0, 1], &mut longer), 0);
        assert_eq!(longer[..9], [2, 4_026_531_840, 0, 2, 3, 50_000, 0, 1, 0]);
        assert_eq!(longer[34..], [3_758_396_417, 1, 7]);
        assert_eq!(tape::read(&longer[1..34]), Err(Refusal::Word));
    }
}
