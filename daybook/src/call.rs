//! A call that changes the book: an instruction of a tape, or the commit of a lift.

use settlement_day::calls::{self, Done};
use settlement_day::{Book, Instruction, Refusal, Ticket};
use tape::text::line_of;

/// A call with its numbers; a roll has its quotes, any other call none.
#[derive(Clone, Debug, PartialEq, Eq)]
pub enum Call {
    Tape { instruction: Instruction, quotes: Vec<u32> },
    Commit(Ticket),
}

impl Call {
    /// Makes the call. The output has at least `settlement_day::OUTPUT_WORDS` words.
    pub fn make(&self, book: &mut Book, output: &mut [u32]) -> Result<Done, Refusal> {
        match self {
            Call::Tape { instruction, quotes } => calls::call(book, instruction, quotes, output),
            Call::Commit(ticket) => calls::commit(book, ticket, output),
        }
    }

    /// Its name.
    pub fn name(&self) -> &'static str {
        match self {
            Call::Tape { instruction, .. } => instruction.name(),
            Call::Commit(_) => "commit",
        }
    }

    /// The line that says it at the console.
    pub fn line(&self) -> String {
        match self {
            Call::Tape { instruction, quotes } => line_of(instruction, quotes),
            Call::Commit(ticket) => {
                let numbers: Vec<String> = ticket.numbers().iter().map(u32::to_string).collect();
                format!("commit {}", numbers.join(" "))
            }
        }
    }
}

/// A record that a call wrote: a handover from the house (10), in a resolve (11), or a fail (12).
#[derive(Clone, Copy, Debug, PartialEq, Eq)]
pub struct Record {
    pub kind: u32,
    pub issue: u32,
    pub from: u32,
    pub to: u32,
    pub lots: u32,
}

/// The kinds of records.
pub const HANDED: u32 = 10;
pub const RESOLVED: u32 = 11;
pub const FAILED: u32 = 12;

/// The first so many records of an output.
pub fn records(output: &[u32], count: usize) -> Vec<Record> {
    let record = |words: &[u32]| Record {
        kind: words[0] >> 28,
        issue: words[0] >> 24 & 15,
        from: words[0] >> 18 & 63,
        to: words[0] >> 12 & 63,
        lots: words[1] & 0x0fff_ffff,
    };
    output.chunks_exact(2).take(count).map(record).collect()
}
