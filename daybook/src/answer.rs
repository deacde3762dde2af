//! What the console answers to a line, before it is put into words or into JSON.

use crate::call::{Call, Record};
use crate::orders::Like;
use settlement_day::calls::Unit;
use settlement_day::{Entry, Lift, Refusal, Status, Ticket};
use tape::fault::Fault;

/// An answer.
#[derive(Clone, Debug, PartialEq, Eq)]
pub enum Answer {
    /// The call is done, and its record stands on the disk.
    Done(Box<Done>),
    /// The book says no; nothing is changed. What was said, and why, with the numbers behind it.
    Refused {
        said: String,
        refusal: Refusal,
        why: String,
    },
    /// The disk failed; the book is as it was.
    NotDone {
        said: String,
        why: String,
    },
    /// The line cannot be read.
    Wrong(Vec<Fault>),
    /// The line can be read, and there is nothing to do.
    Nothing(String),
    Ticket(Ticket),
    Unit {
        issue: u32,
        unit: u32,
        found: Option<Unit>,
    },
    Why {
        issue: u32,
        unit: u32,
        found: Unit,
        status: Status,
    },
    Order {
        issue: u32,
        units: Vec<Like>,
    },
    Ledger(Vec<Entry>),
    Charges(Vec<(u32, i64)>),
    Status(Box<State>),
    Help,
}

/// What a call did.
#[derive(Clone, Debug, PartialEq, Eq)]
pub struct Done {
    pub call: Call,
    /// What is to be said of its line.
    pub note: Option<String>,
    /// Of records; for pair-off, of steps.
    pub count: usize,
    /// Pair-off's lots.
    pub cancelled: u64,
    pub records: Vec<Record>,
    /// The day and the phase after it.
    pub day: u16,
    pub phase: &'static str,
}

/// The book and its folder.
#[derive(Clone, Debug, PartialEq, Eq)]
pub struct State {
    pub day: u16,
    pub phase: &'static str,
    /// The first day on which full units are dealt in turn; 0 where none is named.
    pub turn: u32,
    pub marked: Vec<u32>,
    /// The lifts of each issue that has some.
    pub lifts: Vec<(u32, Vec<Lift>)>,
    pub entries: usize,
    pub charged: usize,
    /// The number of the snapshot and the journal at work, and the journal's records.
    pub number: u32,
    pub records: u64,
}

impl Answer {
    /// Is something wrong or refused?
    pub fn is_bad(&self) -> bool {
        matches!(self, Answer::Refused { .. } | Answer::NotDone { .. } | Answer::Wrong(_))
    }
}
