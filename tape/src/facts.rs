//! The facts of a tape: what each instruction did to the book, in the order in which it came.

use crate::dealt::{Rounds, Turn};
use crate::input::Stands;
use crate::known::Known;
use crate::ledger::Step;
use crate::units::Case;
use settlement_day::{Instruction, Refusal};

/// One fact. Units of an issue are numbered from 0 in their order; those from `first` to `last` are
/// alike: of one account and of so many lots each.
#[derive(Clone, Debug, PartialEq, Eq)]
pub enum Fact {
    /// A day begins. From day `turn` on full units are dealt in turn; 0 where no day is named.
    Day { day: u16, turn: u32 },
    /// An instruction, and why it was refused, if it was.
    Instruction { instruction: Instruction, refusal: Option<(Refusal, String)> },
    /// Units of an account, which is due this many lots in all.
    Units { issue: u32, first: u32, last: u32, account: u32, lots: u32, due: u32 },
    /// Full units dealt in turn, one to each of these accounts a round.
    Rounds { issue: u32, rounds: Rounds },
    /// Accounts with equal nets (both full) or equal small units (both small): the lower number comes
    /// first.
    Tie { issue: u32, case: Case, lots: u32, accounts: Vec<u32> },
    /// A full unit, and behind it the small unit `next` of `follower`: the full one comes first,
    /// whatever the nets.
    SmallAfterFull { issue: u32, unit: u32, account: u32, next: u32, follower: u32 },
    /// What an account still owes today.
    Owes { issue: u32, account: u32, lots: u64 },
    /// Units handed over whole; where they stand, if they were dealt in turn.
    Handed { issue: u32, first: u32, last: u32, account: u32, lots: u32, turn: Option<Turn> },
    /// Stock that does not cover the next unit.
    Waits { issue: u32, stock: u64, unit: u32, account: u32, lots: u32, turn: Option<Turn> },
    /// The remaining stock that goes to a unit at cutoff, which lacks the rest.
    Partly { issue: u32, unit: u32, account: u32, lots: u32, lacks: u32 },
    /// A fail of the cutoff, and the units that it belongs to, so many of the account's from the first
    /// to the last.
    Fails { issue: u32, from: u32, to: u32, lots: u32, first: u32, last: u32, units: u32 },
    /// A cutoff with no fail.
    NothingFails,
    /// Lots handed over in a resolve.
    Resolved { issue: u32, from: u32, to: u32, lots: u32 },
    /// What a pair-off did.
    Paired { issue: u32, account: u32, steps: usize, cancelled: u64 },
    /// A step of a pair-off: lots that `from` fails the account since a day meet lots that the account
    /// fails `to` since another. Where the two are not one account, `from` now owes them to `to`.
    Met { issue: u32, account: u32, step: Step },
    /// An entry of the issue's ledger after a pair-off.
    Left { issue: u32, from: u32, to: u32, lots: u32, since: u16 },
    /// The charge that a roll lays on an entry, and what it is made of.
    Charge { terms: Terms, from: u32, to: u32, lots: u32, value: u64, yen: u64 },
    /// Reading ends before the tape does.
    ReadingEnds { refusal: Refusal, why: String },
    /// The book at the end.
    End { phase: &'static str, entries: usize, charged: usize },
    /// The first day on which full units are dealt in turn, as it is named at the end.
    ChangeOver { turn: u32 },
    /// An issue that is marked at the end: it takes even lots only.
    Marked { issue: u32 },
    /// A fail entry of the ledger at the end.
    Entry { issue: u32, from: u32, to: u32, lots: u32, since: u16 },
    /// An account's charges at the end.
    Charged { account: u32, yen: i64 },
}

/// A fact as it is told: the day that it is of, the first word of the instruction that it belongs to
/// (none where a day begins, and of the book at the end) and where that stands, and the names and dates that
/// are known then.
#[derive(Clone, Copy, Debug, PartialEq, Eq)]
pub struct Told<'a> {
    pub day: u16,
    pub word: Option<usize>,
    pub stands: Stands<'a>,
    pub fact: &'a Fact,
    pub known: &'a Known,
}

/// The terms of a charge: of which issue, at which price and accrued amount, for how many days at
/// which rate.
#[derive(Clone, Copy, Debug, PartialEq, Eq)]
pub struct Terms {
    pub issue: u32,
    pub price: u32,
    pub accrued: u32,
    pub days: u32,
    pub rate: u32,
}

impl Fact {
    /// The issue that a fact is about, if it is about one.
    pub fn issue(&self) -> Option<u32> {
        match self {
            Fact::Instruction { instruction, .. } => issue_of(instruction),
            Fact::Units { issue, .. }
            | Fact::Rounds { issue, .. }
            | Fact::Tie { issue, .. }
            | Fact::SmallAfterFull { issue, .. }
            | Fact::Owes { issue, .. }
            | Fact::Handed { issue, .. }
            | Fact::Waits { issue, .. }
            | Fact::Partly { issue, .. }
            | Fact::Fails { issue, .. }
            | Fact::Resolved { issue, .. }
            | Fact::Paired { issue, .. }
            | Fact::Met { issue, .. }
            | Fact::Left { issue, .. }
            | Fact::Marked { issue }
            | Fact::Entry { issue, .. }
            | Fact::Charge { terms: Terms { issue, .. }, .. } => Some(*issue),
            _ => None,
        }
    }

    /// The accounts that a fact is about; none where it is about the whole book.
    pub fn accounts(&self) -> Vec<u32> {
        match self {
            Fact::Instruction { instruction, .. } => accounts_of(instruction),
            Fact::Tie { accounts, .. } => accounts.clone(),
            Fact::Rounds { rounds, .. } => rounds.accounts.clone(),
            Fact::SmallAfterFull { account, follower, .. } => vec![*account, *follower],
            Fact::Met { account, step, .. } => vec![step.from, *account, step.to],
            Fact::Units { account, .. }
            | Fact::Owes { account, .. }
            | Fact::Handed { account, .. }
            | Fact::Waits { account, .. }
            | Fact::Partly { account, .. }
            | Fact::Paired { account, .. }
            | Fact::Charged { account, .. } => vec![*account],
            Fact::Fails { from, to, .. }
            | Fact::Resolved { from, to, .. }
            | Fact::Left { from, to, .. }
            | Fact::Entry { from, to, .. }
            | Fact::Charge { from, to, .. } => vec![*from, *to],
            _ => Vec::new(),
        }
    }
}

/// The issue of an instruction.
fn issue_of(instruction: &Instruction) -> Option<u32> {
    match *instruction {
        Instruction::Trade { issue, .. }
        | Instruction::Deliver { issue, .. }
        | Instruction::Resolve { issue, .. }
        | Instruction::PairOff { issue, .. }
        | Instruction::Mark { issue, .. } => Some(issue),
        Instruction::Close
        | Instruction::Cutoff
        | Instruction::Roll { .. }
        | Instruction::Turn { .. } => None,
    }
}

/// The accounts of an instruction.
fn accounts_of(instruction: &Instruction) -> Vec<u32> {
    match *instruction {
        Instruction::Trade { from, to, .. } => vec![from, to],
        Instruction::Deliver { account, .. }
        | Instruction::Resolve { account, .. }
        | Instruction::PairOff { account, .. } => vec![account],
        Instruction::Close
        | Instruction::Cutoff
        | Instruction::Roll { .. }
        | Instruction::Mark { .. }
        | Instruction::Turn { .. } => Vec::new(),
    }
}
