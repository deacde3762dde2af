//! Books as the words of a snapshot, calls as the words of a record, and back: all that the folder's two
//! formats are, so that another maker of them changes this file alone.

use crate::call::Call;
use settlement_day::journal::{self, Call as Kept, Next};
use settlement_day::{snapshot, Book};

/// The words of a snapshot.
pub const SNAPSHOT_WORDS: usize = snapshot::WORDS;
/// The words of a record.
pub const RECORD_WORDS: usize = journal::RECORD_WORDS;
/// The bytes of a record.
pub const RECORD_BYTES: usize = 4 * RECORD_WORDS;

/// What stands where a record would begin.
#[derive(Clone, Debug, PartialEq, Eq)]
pub enum Read {
    Call(Call),
    /// No word is left.
    Nothing,
    /// It is not whole or wrong, and nothing stands behind it.
    Torn,
    /// It is wrong, and something stands behind it.
    Damaged,
}

/// The words of a book, or why it is not saved.
pub fn save(book: &Book) -> Result<Vec<u32>, &'static str> {
    snapshot::save(book).map_err(why)
}

/// The book of words, or why there is none.
pub fn open(words: &[u32]) -> Result<Book, &'static str> {
    snapshot::open(words).map_err(why)
}

/// What the reasons say.
fn why(reason: u32) -> &'static str {
    match reason {
        1 => "it has not the length of a snapshot",
        2 => "it is of another version",
        3 => "its checksum is wrong",
        4 => "a number does not fit its field",
        _ => "its book is not sound",
    }
}

/// The record of a call with a number; none where a number of the call does not fit.
pub fn record(number: u32, call: &Call) -> Option<[u32; RECORD_WORDS]> {
    let kept = match call {
        Call::Tape { instruction, quotes } => Kept::Instruction(*instruction, quotes.clone()),
        Call::Commit(ticket) => Kept::Commit(*ticket),
    };
    journal::record(number, &kept)
}

/// Reads the record with a number, with which the words begin.
pub fn read(number: u32, words: &[u32]) -> Read {
    match journal::read(number, words) {
        Next::Call(Kept::Instruction(instruction, quotes)) => {
            Read::Call(Call::Tape { instruction, quotes })
        }
        Next::Call(Kept::Commit(ticket)) => Read::Call(Call::Commit(ticket)),
        Next::Nothing => Read::Nothing,
        Next::Torn => Read::Torn,
        Next::Damaged => Read::Damaged,
    }
}
