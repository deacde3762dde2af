//! The records of a journal: each of 36 words, one call that was accepted, an instruction or a commit.

use crate::calls::Ticket;
use crate::questions::WRITER_OUTPUT;
use crate::snapshot::{halves, weighted};
use crate::tape::{self, Instruction};

/// The words of a record.
pub const RECORD_WORDS: usize = 36;
/// Where the call's words begin and where they end: there the checksum stands.
const CALL: usize = 1;
const CHECKSUM: usize = 34;
/// The kind of the word with which a commit begins.
pub const COMMIT: u32 = 15;
/// The numbers of a ticket.
const TICKET: usize = 6;

/// Why no call is read: no word is left; torn, the last record is not whole or wrong; damaged, it is
/// wrong, and something stands behind it.
pub const NONE: u32 = 1;
pub const TORN: u32 = 2;
pub const DAMAGED: u32 = 3;
/// Why a call is not written: a number does not fit.
pub const NO_FIT: u32 = 4;

/// A record.
pub type Record = [u32; RECORD_WORDS];

/// A call that a journal keeps.
#[derive(Clone, Debug, PartialEq, Eq)]
pub enum Kept {
    /// An instruction, with the quotes of a roll, none beside any other.
    Call(Instruction, Vec<u32>),
    Commit(Ticket),
}

/// The record of an instruction, with the quotes of a roll.
pub fn write_call(number: u32, instruction: &Instruction, quotes: &[u32]) -> Result<Record, u32> {
    let mut words = [0; WRITER_OUTPUT];
    match tape::write(instruction, quotes, &mut words).number {
        0 => Ok(sealed(number, &words)),
        _ => Err(NO_FIT),
    }
}

/// The record of a commit.
pub fn write_commit(number: u32, ticket: &Ticket) -> Record {
    let Ticket { issue, unit, account, lots, day, count } = *ticket;
    sealed(number, &[COMMIT << 28, issue, unit, account, lots, day, count])
}

/// The record of a call's words.
fn sealed(number: u32, call: &[u32]) -> Record {
    let mut record = [0; RECORD_WORDS];
    record[0] = number;
    record[CALL..CALL + call.len()].copy_from_slice(call);
    let sum = weighted(&record[..CHECKSUM]);
    record[CHECKSUM..].copy_from_slice(&halves(sum));
    record
}

/// The call of the record with this number, with which the words begin, or why there is none.
pub fn read(number: u32, words: &[u32]) -> Result<Kept, u32> {
    if words.is_empty() {
        return Err(NONE);
    }
    let wrong = if words.len() > RECORD_WORDS { DAMAGED } else { TORN };
    let record = words.get(..RECORD_WORDS).ok_or(TORN)?;
    let whole = record[0] == number && record[CHECKSUM..] == halves(weighted(&record[..CHECKSUM]));
    let call = &record[CALL..CHECKSUM];
    let (kept, length) = whole.then(|| call_of(call)).flatten().ok_or(wrong)?;
    call[length..].iter().all(|&word| word == 0).then_some(kept).ok_or(wrong)
}

/// The call with which these words begin, and how many it has.
fn call_of(words: &[u32]) -> Option<(Kept, usize)> {
    if words[0] == COMMIT << 28 {
        let &[_, issue, unit, account, lots, day, count, ..] = words else { return None };
        let ticket = Ticket { issue, unit, account, lots, day, count };
        return Some((Kept::Commit(ticket), 1 + TICKET));
    }
    let (instruction, length) = tape::read(words).ok()?;
    let roll = matches!(instruction, Instruction::Roll { .. });
    let quotes = if roll { tape::quotes(words) } else { Vec::new() };
    Some((Kept::Call(instruction, quotes), length))
}

#[cfg(test)]
mod tests {
    use super::*;

    /// A call of each kind.
    fn calls() -> Vec<Kept> {
        let none = Vec::new;
        vec![
            Kept::Call(Instruction::Trade { issue: 15, from: 63, to: 0, lots: 20_000_000 }, none()),
            Kept::Call(Instruction::Deliver { issue: 1, account: 2, lots: 3 }, none()),
            Kept::Call(Instruction::Resolve { issue: 1, account: 2, lots: 3 }, none()),
            Kept::Call(Instruction::PairOff { issue: 0, account: 0 }, none()),
            Kept::Call(Instruction::Close, none()),
            Kept::Call(Instruction::Cutoff, none()),
            Kept::Call(Instruction::Roll { days: 1, rate: 300 }, (1..=32).collect()),
            Kept::Call(Instruction::Mark { issue: 3, mark: 1 }, none()),
            Kept::Call(Instruction::Turn { day: 65_535 }, none()),
            Kept::Commit(Ticket {
                issue: 0,
                unit: u32::MAX,
                account: 2,
                lots: 50_000,
                day: 0,
                count: 3,
            }),
            Kept::Commit(Ticket::default()),
        ]
    }

    fn written(number: u32, kept: &Kept) -> Record {
        match kept {
            Kept::Call(instruction, quotes) => write_call(number, instruction, quotes).unwrap(),
            Kept::Commit(ticket) => write_commit(number, ticket),
        }
    }

    #[test]
    fn what_is_written_is_read() {
        for (number, kept) in (0..).zip(calls()) {
            let record = written(number, &kept);
            assert_eq!(read(number, &record), Ok(kept.clone()));
            assert_eq!(read(number, &[&record[..], &[7]].concat()), Ok(kept));
            assert_eq!(read(number + 1, &record), Err(TORN));
        }
        let trade = Instruction::Trade { issue: 0, from: 4, to: 1, lots: 230_000 };
        let trade = written(0, &Kept::Call(trade, Vec::new()));
        assert_eq!(trade[..4], [0, 0x1010_1000, 0x8003_8270, 0]);
        assert_eq!(trade[34..], [2_687_149_904, 1]);
        let close = written(2, &Kept::Call(Instruction::Close, Vec::new()));
        assert_eq!(close[..3], [2, 0x5000_0000, 0]);
        assert_eq!(close[34..], [0xa000_0002, 0]);
        assert_eq!(write_call(0, &Instruction::Turn { day: 65_536 }, &[]), Err(NO_FIT));
        assert_eq!(write_call(0, &Instruction::Roll { days: 1, rate: 1 }, &[]), Err(NO_FIT));
    }

    #[test]
    fn torn_is_told_from_damaged() {
        assert_eq!(read(0, &[]), Err(NONE));
        for kept in calls() {
            let record = written(9, &kept);
            for length in 1..RECORD_WORDS {
                assert_eq!(read(9, &record[..length]), Err(TORN));
            }
            for bit in 0..32 * RECORD_WORDS {
                let mut changed = record;
                changed[bit / 32] ^= 1 << (bit % 32);
                assert_eq!(read(9, &changed), Err(TORN));
                assert_eq!(read(9, &[&changed[..], &[0]].concat()), Err(DAMAGED));
            }
        }
    }

    #[test]
    fn a_right_sum_does_not_make_a_call() {
        for words in [
            &[0][..],
            &[0x5000_0001],
            &[0x5000_0000, 1],
            &[0xf000_0001],
            &[0xf000_0000, 0, 0, 0, 0, 0, 0, 1],
            &[0x1004_2000, 0x9000_0003],
            &[0x1004_2000, 0x8000_0003, 0x5000_0000],
        ] {
            assert_eq!(read(4, &sealed(4, words)), Err(TORN), "{words:x?}");
        }
    }
}
