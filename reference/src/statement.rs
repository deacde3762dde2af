//! Fails statement over a span of a tape (document 02, F-13): what an account owes at each close, what it
//! delivers and the records of fails are noted as the tape is run; a day is put down at its cutoff.

use crate::book::{place, Book};
use crate::questions::{account_in_range, issue_in_range, CALL_OUTPUT};
use crate::run::obey;
use crate::tape::{self, Instruction, FAIL, RESOLVED};

/// The most instructions of a span.
pub const MOST_INSTRUCTIONS: usize = 4_096;

/// An account's record in an issue, in lots. Failed over due is `failed` over `due`, as they stand.
#[derive(Clone, Copy, Debug, Default, PartialEq, Eq)]
pub struct Statement {
    pub due: u64,
    pub delivered: u64,
    pub failed: u64,
    pub resolved: u64,
}

/// A day that is settling: what was due at its close, and what was delivered since.
#[derive(Clone, Copy, Default)]
struct Settling {
    due: u64,
    delivered: u64,
}

/// The statement of a tape's first 4,096 instructions, or fewer, or 4 or 5.
pub fn statement(words: &[u32], issue: u32, account: u32) -> Result<Statement, u32> {
    let at = place(issue_in_range(issue)?, account_in_range(account)?);
    let mut book = Book::fresh();
    let mut output = vec![0; CALL_OUTPUT];
    let mut told = Statement::default();
    let mut day = Settling::default();
    let mut rest = words;
    for _ in 0..MOST_INSTRUCTIONS {
        let Ok((instruction, count)) = tape::read(rest) else { break };
        let answer = obey(&mut book, &instruction, rest, &mut output);
        rest = &rest[count..];
        if answer.number != 0 {
            continue;
        }
        match instruction {
            Instruction::Close => {
                let due = book.nets[at].min(0).unsigned_abs().into();
                day = Settling { due, delivered: 0 };
            }
            Instruction::Deliver { issue: of, account: by, lots }
                if (of, by) == (issue, account) =>
            {
                day.delivered += u64::from(lots);
            }
            Instruction::Cutoff => {
                told.due += day.due;
                told.delivered += day.delivered;
                let records = &output[..2 * answer.count as usize];
                told.failed += lots_by(records, FAIL, issue, account);
            }
            Instruction::Resolve { .. } => {
                let records = &output[..2 * answer.count as usize];
                told.resolved += lots_by(records, RESOLVED, issue, account);
            }
            _ => {}
        }
    }
    Ok(told)
}

/// The lots of all fails that the tape's first 4,096 instructions wrote in an issue, whoever failed.
pub fn fails(words: &[u32], issue: u32) -> u64 {
    let mut book = Book::fresh();
    let mut output = vec![0; CALL_OUTPUT];
    let mut rest = words;
    let mut lots = 0;
    for _ in 0..MOST_INSTRUCTIONS {
        let Ok((instruction, count)) = tape::read(rest) else { break };
        let answer = obey(&mut book, &instruction, rest, &mut output);
        if instruction == Instruction::Cutoff {
            let records = &output[..2 * answer.count as usize];
            lots += lots_of(records, |head| head >> 24 == FAIL << 4 | issue);
        }
        rest = &rest[count..];
    }
    lots
}

/// The lots of the records of a kind in an issue that are from an account.
fn lots_by(records: &[u32], kind: u32, issue: u32, account: u32) -> u64 {
    lots_of(records, |head| head >> 18 == kind << 10 | issue << 6 | account)
}

/// The lots of the records whose head passes.
fn lots_of(records: &[u32], passes: impl Fn(u32) -> bool) -> u64 {
    let own = records.chunks_exact(2).filter(|record| passes(record[0]));
    own.map(|record| u64::from(record[1] & 0xfff_ffff)).sum()
}
