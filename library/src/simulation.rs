//! Unit sizes tried on a simulated desk: whether smaller units loosen a jam.
//!
//! Netting accounts share settlement accounts. In turn, by account and then issue, each delivers the
//! smaller of what its settlement account holds and what it still owes; what an account is handed
//! joins its settlement account at once. It ends with the first round without a delivery.

use crate::{raw, Book, Refusal, ACCOUNTS, ISSUES};

/// Settlement accounts 0 to 15.
pub const SETTLEMENT_ACCOUNTS: usize = 16;
/// The places of inventories: one for each issue and settlement account.
pub const INVENTORIES: usize = ISSUES * SETTLEMENT_ACCOUNTS;
/// The largest size of a unit, in lots, and that of the book.
pub const MOST_SIZE: u32 = 100_000;

/// Who delivers from where, and what is there at the opening.
#[derive(Clone, Debug, PartialEq, Eq)]
pub struct Desk {
    /// The settlement account of each netting account.
    pub settles: [u32; ACCOUNTS],
    /// The lots of each issue in each settlement account, at issue × 16 + settlement account.
    pub inventories: [u32; INVENTORIES],
}

impl Desk {
    /// All accounts in settlement account 0, and nothing there.
    pub fn empty() -> Desk {
        Desk { settles: [0; ACCOUNTS], inventories: [0; INVENTORIES] }
    }

    /// The place of an issue and a settlement account in the inventories, if both are in range.
    pub fn place(issue: u32, settlement: u32) -> Option<usize> {
        let (issue, settlement) = (issue as usize, settlement as usize);
        let known = issue < ISSUES && settlement < SETTLEMENT_ACCOUNTS;
        known.then_some(issue * SETTLEMENT_ACCOUNTS + settlement)
    }
}

/// What came of a simulated desk.
#[derive(Clone, Copy, Debug, PartialEq, Eq)]
pub struct Simulated {
    /// The deliveries made.
    pub deliveries: u64,
    /// The rounds, the stopping one among them.
    pub rounds: u64,
    /// Of each issue the lots still owed.
    pub owed: [u32; ISSUES],
}

impl raw::Simulated {
    /// What came of the desk, or the refusal.
    pub fn simulated(self) -> Result<Simulated, Refusal> {
        let raw::Simulated { refusal, deliveries, rounds, owed } = self;
        Refusal::check(refusal).map(|()| Simulated { deliveries, rounds, owed })
    }
}

impl Simulated {
    /// The lots still owed of all issues together.
    pub fn owed_in_all(&self) -> u64 {
        self.owed.iter().map(|&lots| u64::from(lots)).sum()
    }
}

/// Tries a unit size, 1 to 100,000 lots, on the nets of a book, nothing delivered, lifted or marked.
/// Refused by 2, 5 and 7.
pub fn simulate(book: &Book, desk: &Desk, size: u32) -> Result<Simulated, Refusal> {
    raw::simulate(&book.columns(), &desk.settles, &desk.inventories, size).simulated()
}

#[cfg(test)]
mod tests {
    use super::{simulate, Desk, Simulated};
    use crate::{calls, Book, Refusal, ISSUES};

    /// Account 0 owes 100,000 lots, 60,000 of them to 1 and 40,000 to 2; all three deliver from
    /// settlement account 0, which holds half.
    #[test]
    fn a_ring_jams_at_one_size_and_runs_free_at_another() {
        let mut book = Book::fresh();
        calls::trade(&mut book, 0, 0, 1, 60_000).unwrap();
        calls::trade(&mut book, 0, 0, 2, 40_000).unwrap();
        let mut desk = Desk::empty();
        desk.inventories[0] = 50_000;
        let mut owed = [0; ISSUES];
        owed[0] = 50_000;
        let jammed = Simulated { deliveries: 1, rounds: 2, owed };
        assert_eq!(simulate(&book, &desk, 100_000), Ok(jammed));
        let free = Simulated { deliveries: 2, rounds: 3, owed: [0; ISSUES] };
        assert_eq!(simulate(&book, &desk, 10_000), Ok(free));
        desk.settles[63] = 16;
        assert_eq!(simulate(&book, &desk, 10_000), Err(Refusal::Account));
    }
}
