//! Who may call, who may look: the calls and the questions with their caller and the owners of the
//! accounts.
//!
//! The operator may make every call. A participant may deliver and resolve for its own accounts, and read
//! them; everything else is refused by 27. What a participant may be told of a call is the refusal number
//! and nothing else: count and output are the operator's. `told` keeps that apart.

use crate::calls::{Done, Status, Ticket, Unit};
use crate::simulation::{Desk, Simulated};
use crate::{raw, Book, Entry, Instruction, Refusal, ACCOUNTS};

/// The caller that may make every call.
pub const OPERATOR: u32 = 16;
/// Participants 0 to 15.
pub const PARTICIPANTS: u32 = 16;
/// An owner number that names nobody.
pub const NOBODY: u8 = 255;

/// Who calls, and of each account the number of its owner: 0 to 15 a participant, any other nobody.
#[repr(C)]
#[derive(Clone, Copy, Debug, PartialEq, Eq)]
pub struct Caller {
    /// Who calls: 0 to 15 a participant, 16 the operator, any other nobody.
    pub number: u32,
    /// Of each account the number of its owner.
    pub owners: [u8; ACCOUNTS],
}

/// An account that was read: its net in the issue, its charge, and the entry, if it has one.
#[derive(Clone, Copy, Debug, Default, PartialEq, Eq)]
pub struct Account {
    /// Its net in the issue.
    pub net: i32,
    /// Its charge, in yen.
    pub charge: i64,
    /// The entry, if it has one.
    pub entry: Option<Entry>,
}

impl Caller {
    /// The operator; whose the accounts are does not matter to it.
    pub fn operator() -> Caller {
        Caller { number: OPERATOR, owners: [NOBODY; ACCOUNTS] }
    }

    /// Is it the operator?
    pub fn is_operator(&self) -> bool {
        self.number == OPERATOR
    }
}

/// What the caller may be told of the answer to its call: the operator all of it, any other the refusal,
/// or that it is done and nothing else.
pub fn told(caller: &Caller, answer: Result<Done, Refusal>) -> Result<Option<Done>, Refusal> {
    answer.map(|done| caller.is_operator().then_some(done))
}

/// The call of an instruction by a caller. The answer is the house's; [`told`] has what the caller may see.
pub fn call(
    caller: &Caller,
    book: &mut Book,
    instruction: &Instruction,
    quotes: &[u32],
    out: &mut [u32],
) -> Result<Done, Refusal> {
    raw::call_as(caller, &mut book.columns_mut(), &instruction.fields(), quotes, out).done()
}

/// ask by a caller: the operator's alone.
pub fn ask(caller: &Caller, book: &Book, issue: u32, unit: u32) -> Result<Ticket, Refusal> {
    raw::ask_as(caller, &book.columns(), issue, unit).ticket()
}

/// commit by a caller: the operator's alone.
pub fn commit(
    caller: &Caller,
    book: &mut Book,
    ticket: &Ticket,
    out: &mut [u32],
) -> Result<Done, Refusal> {
    raw::commit_as(caller, &mut book.columns_mut(), &ticket.numbers(), out).done()
}

/// The k-th unit of an issue for a caller: the operator's alone.
pub fn unit(caller: &Caller, book: &Book, issue: u32, k: u32) -> Result<Option<Unit>, Refusal> {
    raw::unit_as(caller, &book.columns(), issue, k).unit()
}

/// Why a unit has not come, for a caller: the operator's alone.
pub fn status(caller: &Caller, book: &Book, issue: u32, k: u32) -> Result<Status, Refusal> {
    raw::status_as(caller, &book.columns(), issue, k).status()
}

/// A unit size tried on a simulated desk, for a caller: the operator's alone.
pub fn simulate(
    caller: &Caller,
    book: &Book,
    desk: &Desk,
    size: u32,
) -> Result<Simulated, Refusal> {
    raw::simulate_as(caller, &book.columns(), &desk.settles, &desk.inventories, size).simulated()
}

/// Reads an account, in any phase: its net in the issue, its charge, and its k-th entry in the issue at
/// either end, in ledger order from 0. A participant reads its own accounts, the operator any.
pub fn read(
    caller: &Caller,
    book: &Book,
    issue: u32,
    account: u32,
    k: u32,
) -> Result<Account, Refusal> {
    let seen = raw::look(caller, &book.columns(), issue, account, k);
    let entry = (seen.some == 1).then_some(seen.entry);
    Refusal::check(seen.refusal).map(|()| Account { net: seen.net, charge: seen.charge, entry })
}

#[cfg(test)]
mod tests {
    use super::*;
    use crate::{calls, Entry, OUTPUT_WORDS};

    /// Account 1 owes 3 lots to account 2; account 1 is participant 0's.
    fn desk() -> (Book, Caller) {
        let mut book = Book::fresh();
        calls::trade(&mut book, 0, 1, 2, 3).unwrap();
        calls::close(&mut book).unwrap();
        let mut owners = [NOBODY; ACCOUNTS];
        owners[1] = 0;
        (book, Caller { number: 0, owners })
    }

    #[test]
    fn a_participant_delivers_for_its_own_account_alone() {
        let (mut book, caller) = desk();
        let mut out = [0; OUTPUT_WORDS];
        let other = Instruction::Deliver { issue: 0, account: 2, lots: 3 };
        let refused = call(&caller, &mut book, &other, &[], &mut out);
        assert_eq!(refused, Err(Refusal::Right));
        assert_eq!(told(&caller, refused), Err(Refusal::Right));
        let own = Instruction::Deliver { issue: 0, account: 1, lots: 3 };
        let answer = call(&caller, &mut book, &own, &[], &mut out);
        assert_eq!(answer, Ok(Done { count: 1, cancelled: 0 }));
        assert_eq!(told(&caller, answer), Ok(None));
        assert_eq!(told(&Caller::operator(), answer), Ok(answer.ok()));
        let cutoff = call(&caller, &mut book, &Instruction::Cutoff, &[], &mut out);
        assert_eq!(cutoff, Err(Refusal::Right));
    }

    #[test]
    fn an_account_is_read_by_its_owner_and_by_the_operator() {
        let (mut book, caller) = desk();
        let mut out = [0; OUTPUT_WORDS];
        calls::cutoff(&mut book, &mut out).unwrap();
        let entry = Entry { issue: 0, from: 1, to: 2, lots: 3, day: 0 };
        let account = Account { net: -3, charge: 0, entry: Some(entry) };
        assert_eq!(read(&caller, &book, 0, 1, 0), Ok(account));
        let none = Account { entry: None, ..account };
        assert_eq!(read(&caller, &book, 0, 1, 1), Ok(none));
        assert_eq!(read(&caller, &book, 0, 2, 0), Err(Refusal::Right));
        let due = Account { net: 3, ..account };
        assert_eq!(read(&Caller::operator(), &book, 0, 2, 0), Ok(due));
    }
}
