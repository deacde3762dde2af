//! Sums of what a day did and of what a book holds, by what they are of: so that instructions in another order
//! that changed nothing differ in none.

use crate::facts::Fact;
use settlement_day::{Book, ACCOUNTS, ISSUES};
use std::collections::{BTreeMap, BTreeSet};

/// What a sum is of: the first ones of a day, the others of the book at the end.
#[derive(Clone, Copy, Debug, PartialEq, Eq, PartialOrd, Ord)]
pub enum Of {
    /// Units handed whole and all lots handed, the cutoff's remaining stock too.
    Handed { issue: u32, account: u32 },
    /// Lots failed at the cutoff.
    Fails { issue: u32, from: u32, to: u32 },
    /// Lots handed over in resolves.
    Resolved { issue: u32, from: u32, to: u32 },
    /// Lots cancelled in pair-offs.
    Paired { issue: u32, account: u32 },
    /// The yen that the roll gives an account; less than 0 where it is charged.
    Charge { account: u32 },
    /// The change-over day; 0 where none is named.
    ChangeOver,
    /// 1 where an issue takes even lots only.
    Marked { issue: u32 },
    /// An account's net.
    Net { issue: u32, account: u32 },
    /// Lots that an account delivered today.
    Delivered { issue: u32, account: u32 },
    /// Lots of the ledger.
    Entry { issue: u32, from: u32, to: u32, since: u16 },
    /// The yen that an account was given; less than 0 where it was charged.
    Charged { account: u32 },
}

/// A sum: a number, and of what is handed the whole units.
#[derive(Clone, Copy, Debug, Default, PartialEq, Eq)]
pub struct Amount {
    pub units: u64,
    pub number: i64,
}

/// Sums by what they are of.
#[derive(Clone, Debug, Default, PartialEq, Eq)]
pub struct Sums(BTreeMap<Of, Amount>);

impl Sums {
    /// Adds to a sum.
    fn add(&mut self, of: Of, units: u32, number: i64) {
        let amount = self.0.entry(of).or_default();
        amount.units += u64::from(units);
        amount.number += number;
    }

    /// Adds what a fact says that an instruction did.
    pub fn note(&mut self, fact: &Fact) {
        match *fact {
            Fact::Handed { issue, first, last, account, lots, .. } => {
                let units = last + 1 - first;
                self.add(Of::Handed { issue, account }, units, i64::from(units) * i64::from(lots));
            }
            Fact::Partly { issue, account, lots, .. } => {
                self.add(Of::Handed { issue, account }, 0, lots.into());
            }
            Fact::Fails { issue, from, to, lots, .. } => {
                self.add(Of::Fails { issue, from, to }, 0, lots.into());
            }
            Fact::Resolved { issue, from, to, lots } => {
                self.add(Of::Resolved { issue, from, to }, 0, lots.into());
            }
            Fact::Paired { issue, account, cancelled, .. } => {
                self.add(Of::Paired { issue, account }, 0, cancelled as i64);
            }
            Fact::Charge { from, to, yen, .. } => {
                self.add(Of::Charge { account: from }, 0, -(yen as i64));
                self.add(Of::Charge { account: to }, 0, yen as i64);
            }
            _ => {}
        }
    }

    /// What a book holds.
    pub fn of_book(book: &Book) -> Sums {
        let mut sums = Sums::default();
        sums.add(Of::ChangeOver, 0, book.turn.into());
        for issue in 0..ISSUES as u32 {
            sums.add(Of::Marked { issue }, 0, book.is_marked(issue).into());
            for account in 0..ACCOUNTS as u32 {
                sums.add(Of::Net { issue, account }, 0, book.net(issue, account).into());
                let delivered = book.delivered(issue, account);
                sums.add(Of::Delivered { issue, account }, 0, delivered.into());
            }
        }
        for entry in book.ledger() {
            let (issue, from, to) = (entry.issue.into(), entry.from.into(), entry.to.into());
            let since = entry.day;
            sums.add(Of::Entry { issue, from, to, since }, 0, entry.lots.into());
        }
        for (account, yen) in (0..).zip(book.charges) {
            sums.add(Of::Charged { account }, 0, yen);
        }
        sums
    }

    /// The sums that differ, in both.
    pub fn differing(&self, other: &Sums) -> Vec<(Of, [Amount; 2])> {
        let of: BTreeSet<&Of> = self.0.keys().chain(other.0.keys()).collect();
        let in_both =
            |of: &Of| [self, other].map(|sums| sums.0.get(of).copied().unwrap_or_default());
        let all = of.into_iter().map(|of| (*of, in_both(of)));
        all.filter(|(_, [one, two])| one != two).collect()
    }
}

/// Do two books hold the same? Places of the ledger that are not used are left out, and so is the count of the
/// day's deliveries, which a roll clears and nothing of a tape asks for.
pub fn same_books(one: &Book, other: &Book) -> bool {
    let state = |book: &Book| (book.day, book.phase, book.turn);
    let mut issues = 0..ISSUES as u32;
    state(one) == state(other)
        && issues.all(|issue| one.is_marked(issue) == other.is_marked(issue))
        && one.nets == other.nets
        && one.delivered == other.delivered
        && one.charges == other.charges
        && one.ledger().eq(other.ledger())
}

#[cfg(test)]
mod tests {
    use super::*;
    use settlement_day::place;

    #[test]
    fn sums_are_the_same_whatever_the_sequence() {
        let fails =
            |from, lots| Fact::Fails { issue: 0, from, to: 2, lots, first: 0, last: 0, units: 1 };
        let sums = |facts: &[Fact]| {
            let mut sums = Sums::default();
            facts.iter().for_each(|fact| sums.note(fact));
            sums
        };
        let one = sums(&[fails(1, 5), fails(3, 7), fails(1, 6)]);
        assert_eq!(one.differing(&sums(&[fails(1, 11), fails(3, 7)])), []);
        let two = sums(&[fails(1, 11), fails(4, 8)]);
        let amount = |number| Amount { units: 0, number };
        let of = |from| Of::Fails { issue: 0, from, to: 2 };
        let expected = [(of(3), [amount(7), amount(0)]), (of(4), [amount(0), amount(8)])];
        assert_eq!(one.differing(&two), expected);
    }

    #[test]
    fn books_that_hold_the_same_have_the_same_sums() {
        let (mut one, mut two) = (Book::fresh(), Book::fresh());
        two.lots[2_000] = 7;
        assert!(same_books(&one, &two) && one != two);
        let place = place(3, 4).unwrap();
        (one.nets[place], one.charges[5], one.marks[2], one.turn) = (-9, 4, 1, 7);
        assert!(!same_books(&one, &two));
        let differ = Sums::of_book(&one).differing(&Sums::of_book(&two));
        let of: Vec<Of> = differ.iter().map(|(of, _)| *of).collect();
        let net = Of::Net { issue: 3, account: 4 };
        assert_eq!(of, [Of::ChangeOver, Of::Marked { issue: 2 }, net, Of::Charged { account: 5 }]);
    }
}
