//! The proved library, called safely from Rust: a book and the calls on it, lifts of one unit, why a
//! unit has not come, who may call and who may look, unit sizes tried on a simulated desk, the tape's
//! reader and writer, value and charge, entries met, a fail inside a trust account, obligated funds for a
//! default, every small market, an account's fails statement over a span of a tape, the journal of calls.
//!
//! ```
//! use settlement_day::{calls, Book, Instruction, OUTPUT_WORDS};
//!
//! let mut book = Book::fresh();
//! let mut out = [0; OUTPUT_WORDS];
//! calls::trade(&mut book, 0, 1, 2, 3)?;
//! calls::close(&mut book)?;
//! let done = calls::call(&mut book, &Instruction::Cutoff, &[], &mut out)?;
//! assert_eq!(done.count, 1);
//! # Ok::<(), settlement_day::Refusal>(())
//! ```
//!
//! What is refused is an `Err` of a [`Refusal`], an error that says what to do. A book may hold any
//! numbers: one that is not sound is refused by 2. Nothing here stops a program, whatever the book, the
//! numbers and the words are; [`raw`] takes columns of any length too, and answers in plain numbers.

#![deny(missing_docs)]
#![warn(rustdoc::broken_intra_doc_links)]

#[macro_use]
mod columns;

pub mod access;
pub mod batch;
mod book;
pub mod calls;
mod declarations;
pub mod desk;
pub mod entries;
pub mod funds;
mod instruction;
pub mod journal;
pub mod markets;
pub mod raw;
mod refusal;
pub mod simulation;
pub mod snapshot;
pub mod statement;
pub mod tape;
pub mod trust;
mod version;

pub use access::Caller;
pub use book::{place, Book, Lift, Phase};
pub use calls::{Done, Status, Ticket};
pub use entries::Entry;
pub use instruction::{Fields, Instruction};
pub use refusal::Refusal;
pub use version::{Version, VERSION};

/// Issues 0 to 15.
pub const ISSUES: usize = 16;
/// What a roll is given: a price for each issue, then an accrued amount for each.
pub const QUOTES: usize = 2 * ISSUES;
/// Netting accounts 0 to 63.
pub const ACCOUNTS: usize = 64;
/// The places of nets and of delivered lots: one for each issue and account.
pub const PLACES: usize = ISSUES * ACCOUNTS;
/// The most lifts that stand for an issue.
pub const LIFTS: usize = 8;
/// An issue's words of lifts: their number, the count, and of each lift its old and its new place.
pub const LIFT_WORDS: usize = 2 + 2 * LIFTS;
/// The words of lifts of all issues.
pub const LIFT_PLACES: usize = ISSUES * LIFT_WORDS;
/// The most fail entries of the ledger.
pub const ENTRIES: usize = 2_048;
/// The words that the output of deliver, commit, cutoff and resolve has at the least.
pub const OUTPUT_WORDS: usize = 4_096;
/// The words that the output of the tape writer has at the least.
pub const WRITER_WORDS: usize = 1 + QUOTES;
