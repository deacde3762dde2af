//! Who may call, who may look: callers, the owners of the accounts, and reading an account.
//!
//! A call's questions are put as ever, on a copy of the book. Of a caller without the right the first 'no'
//! counts only where its question comes before 27; where there is none, or a later one, it is 27.

use crate::book::{place, Book, Entry, ACCOUNTS};
use crate::questions::{account_in_range, ask, book_is_sound, issue_in_range, Soundness};

/// The caller that may make every call.
pub const OPERATOR: u32 = 16;
/// Participants 0 to 15.
pub const PARTICIPANTS: u32 = 16;
/// The number of a caller without the right.
pub const NO_RIGHT: u32 = 27;
/// The questions that are put before that of the right, in their order.
const BEFORE: [u32; 6] = [1, 2, 3, 26, 4, 5];

/// Who calls, and of each account who owns it: 0 to 15 a participant, any other number nobody.
#[derive(Clone, Copy, Debug, PartialEq, Eq)]
pub struct Caller {
    pub number: u32,
    pub owners: [u8; ACCOUNTS],
}

/// What reading an account gives: the refusal number; net, charge and entry, if it has one, where that is
/// 0.
#[derive(Clone, Copy, Debug, PartialEq, Eq)]
pub struct ReadAnswer {
    pub number: u32,
    pub net: i32,
    pub charge: i64,
    pub entry: Option<Entry>,
}

impl Caller {
    /// May it make every call?
    pub fn is_operator(&self) -> bool {
        self.number == OPERATOR
    }

    /// The participant that owns an account, if one does.
    fn owner(&self, account: u32) -> Option<u32> {
        let owner = self.owners.get(usize::try_from(account).ok()?)?;
        Some(u32::from(*owner)).filter(|&owner| owner < PARTICIPANTS)
    }

    /// Is the account its own?
    pub fn owns(&self, account: u32) -> bool {
        self.owner(account) == Some(self.number)
    }

    /// May it deliver and resolve for this account, and read it?
    pub fn may_act_for(&self, account: u32) -> bool {
        self.is_operator() || self.owns(account)
    }
}

/// The number that a caller without the right is told, where one with it is told this number.
pub fn without_right(number: u32) -> u32 {
    if BEFORE.contains(&number) {
        number
    } else {
        NO_RIGHT
    }
}

/// read: questions 2 4 5 27. The account's k-th entry in the issue at either end, in ledger order from 0.
pub fn read(book: &Book, caller: &Caller, issue: u32, account: u32, k: u32) -> ReadAnswer {
    match asked(book, caller, issue, account) {
        Err(number) => ReadAnswer { number, net: 0, charge: 0, entry: None },
        Ok(at) => ReadAnswer {
            number: 0,
            net: book.nets[at],
            charge: book.charges[at % ACCOUNTS],
            entry: entries_of(book, issue, account).get(k as usize).copied(),
        },
    }
}

/// The questions of a reading; the place of issue and account in the columns.
fn asked(book: &Book, caller: &Caller, issue: u32, account: u32) -> Result<usize, u32> {
    book_is_sound(book, Soundness::Asked)?;
    let issue = issue_in_range(issue)?;
    let at = place(issue, account_in_range(account)?);
    ask(NO_RIGHT, caller.may_act_for(account))?;
    Ok(at)
}

/// An account's entries in an issue, from it and to it, in ledger order.
fn entries_of(book: &Book, issue: u32, account: u32) -> Vec<Entry> {
    let own = |entry: &Entry| entry.is_from(issue, account) || entry.is_to(issue, account);
    book.entries().filter(own).collect()
}

#[cfg(test)]
mod tests {
    use super::{read, without_right, Caller, ReadAnswer};
    use crate::book::{Book, Entry};

    /// Account 2 is participant 1's; account 4's owner number is 16.
    fn caller(number: u32) -> Caller {
        let mut owners = [255; 64];
        (owners[2], owners[4]) = (1, 16);
        Caller { number, owners }
    }

    #[test]
    fn sixteen_owns_nothing_and_may_do_all() {
        assert!(caller(1).owns(2) && !caller(1).owns(3) && !caller(0).owns(2));
        assert!(!caller(16).owns(4) && caller(16).may_act_for(4) && !caller(17).may_act_for(4));
        assert!(!caller(255).owns(0) && !caller(1).owns(64) && !caller(1).owns(u32::MAX));
    }

    #[test]
    fn what_comes_before_27() {
        assert_eq!([0, 1, 2, 3, 4, 5, 26].map(without_right), [27, 1, 2, 3, 4, 5, 26]);
        assert_eq!([6, 7, 8, 9, 10, 11, 12, 16, 17, 18, 19, 20].map(without_right), [27; 12]);
    }

    #[test]
    fn an_account_is_read_at_either_end() {
        let mut book = Book::fresh();
        let entry = |from, to, lots| Entry { issue: 0, from, to, lots, day: 0 };
        book.set_ledger(&[entry(1, 2, 30), entry(3, 1, 9), entry(2, 3, 20)]);
        let seen = |entry| ReadAnswer { number: 0, net: 0, charge: 0, entry };
        assert_eq!(read(&book, &caller(1), 0, 2, 0), seen(Some(entry(1, 2, 30))));
        assert_eq!(read(&book, &caller(16), 0, 2, 1), seen(Some(entry(2, 3, 20))));
        assert_eq!(read(&book, &caller(1), 0, 2, 2), seen(None));
        let numbers = [(16, 64), (0, 64), (0, 3), (0, 4)]
            .map(|(issue, account)| read(&book, &caller(1), issue, account, 0).number);
        assert_eq!(numbers, [4, 5, 27, 27]);
    }
}
