//! Fails statement over a span: an account's record in an issue, from a tape.

use crate::declarations::day_statement;
use crate::Refusal;

/// The most instructions of a span; what stands behind them on a tape is not read.
pub const MOST_INSTRUCTIONS: usize = 4_096;

/// What is answered, as the library's function gives it: due, delivered, failed, resolved, and failed over
/// due as two numbers; all 0 on a refusal.
pub type Numbers = [u64; 6];

/// An account's record in an issue, in lots: due to deliver at closes, delivered by cutoffs, failed,
/// resolved. Due is delivered and failed.
#[derive(Clone, Copy, Debug, Default, PartialEq, Eq)]
pub struct Statement {
    /// Lots due to deliver at closes.
    pub due: u64,
    /// Lots delivered by cutoffs.
    pub delivered: u64,
    /// Lots failed.
    pub failed: u64,
    /// Lots resolved.
    pub resolved: u64,
    /// Failed over due, as two whole numbers, unreduced.
    pub failed_over_due: (u64, u64),
}

/// The statement of a tape's first 4,096 instructions, or fewer, run on a fresh book; or 4 or 5. A word that
/// the reader refuses ends the span there, a refused instruction adds nothing, and a day still settling
/// adds its resolves alone.
pub fn statement(words: &[u32], issue: u32, account: u32) -> Result<Statement, Refusal> {
    let mut numbers = [0; 6];
    write(words, issue, account, &mut numbers)?;
    let [due, delivered, failed, resolved, over, under] = numbers;
    Ok(Statement { due, delivered, failed, resolved, failed_over_due: (over, under) })
}

/// Writes the numbers of a statement; on a refusal, 4 or 5, each is 0.
pub fn write(
    words: &[u32],
    issue: u32,
    account: u32,
    numbers: &mut Numbers,
) -> Result<(), Refusal> {
    // SAFETY: the library reads the words within the length given beside them, and writes the six
    // numbers, which, lent as `&mut`, overlap them nowhere.
    let number = unsafe { day_statement(words.as_ptr(), words.len(), issue, account, numbers) };
    Refusal::check(number)
}

#[cfg(test)]
mod tests {
    use super::{statement, write, Statement};
    use crate::{tape, Instruction, Refusal, WRITER_WORDS};

    fn words_of(instructions: &[Instruction]) -> Vec<u32> {
        let mut words = Vec::new();
        for instruction in instructions {
            let mut out = [0; WRITER_WORDS];
            let count = tape::write(instruction, &[], &mut out).unwrap();
            words.extend(&out[..count]);
        }
        words
    }

    #[test]
    fn a_day_that_was_cut_off_and_one_that_was_not() {
        let first = [
            Instruction::Trade { issue: 0, from: 4, to: 1, lots: 100 },
            Instruction::Close,
            Instruction::Deliver { issue: 0, account: 4, lots: 101 },
            Instruction::Deliver { issue: 0, account: 4, lots: 60 },
        ];
        let mut words = words_of(&first);
        assert_eq!(statement(&words, 0, 4), Ok(Statement::default()));
        words.extend(words_of(&[
            Instruction::Cutoff,
            Instruction::Resolve { issue: 0, account: 4, lots: 41 },
            Instruction::Resolve { issue: 0, account: 4, lots: 15 },
            Instruction::PairOff { issue: 0, account: 4 },
        ]));
        let told = Statement {
            due: 100,
            delivered: 60,
            failed: 40,
            resolved: 15,
            failed_over_due: (40, 100),
        };
        assert_eq!(statement(&words, 0, 4), Ok(told));
        assert_eq!(statement(&words, 0, 1), Ok(Statement::default()));
        words.push(0);
        words.extend(words_of(&[Instruction::Resolve { issue: 0, account: 4, lots: 1 }]));
        assert_eq!(statement(&words, 0, 4), Ok(told));
    }

    #[test]
    fn a_refusal_has_0_for_every_number() {
        let mut numbers = [7; 6];
        assert_eq!(write(&[], 16, 64, &mut numbers), Err(Refusal::Issue));
        assert_eq!(numbers, [0; 6]);
        assert_eq!(write(&[], 15, 64, &mut numbers), Err(Refusal::Account));
        assert_eq!(statement(&[], 16, 0), Err(Refusal::Issue));
        assert_eq!(statement(&[], 0, 64), Err(Refusal::Account));
        assert_eq!(statement(&[], 15, 63), Ok(Statement::default()));
    }
}
