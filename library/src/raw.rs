//! The library's functions over columns of any length and plain numbers, nothing turned into types: of
//! each the refusal's number, 0 where it is done, and what is answered beside it.
//!
//! A book whose columns have other lengths than 1,024, 288, 64 and 2,048, or whose phase is above 2,
//! is damaged: the library refuses it by 2. There are always sixteen marks.

use crate::declarations::{
    day_ask, day_ask_as, day_call, day_call_as, day_charge, day_commit, day_commit_as, day_look,
    day_open, day_quotes, day_read, day_run, day_save, day_simulate, day_simulate_as, day_sound,
    day_status, day_status_as, day_unit, day_unit_as, day_value, day_write,
};
use crate::{Caller, Entry, Fields, ISSUES, QUOTES};

/// What stands in a count before the library writes it: no answer has it.
const NOT_WRITTEN: usize = usize::MAX;
/// The same of yen.
const NO_YEN: u64 = u64::MAX;

/// What of a book stands beside its columns, as the library takes it and gives it back.
#[repr(C)]
#[derive(Clone, Copy, Debug, PartialEq, Eq)]
pub struct State {
    /// The day.
    pub day: u16,
    /// The phase's number; above 2 it is none.
    pub phase: u32,
    /// The number of fail entries.
    pub entries: usize,
    /// The change-over day; 0 where none is named.
    pub turn: u32,
    /// The issues' marks; any number but 0 is one.
    pub marks: [u8; ISSUES],
}

/// What a call gives: its answer, and the state after it.
#[repr(C)]
#[derive(Clone, Copy, Debug, PartialEq, Eq)]
#[must_use = "a refusal would be missed"]
pub struct Turned {
    /// The refusal's number, 0 where it is done.
    pub refusal: u32,
    /// The records written; for pair-off, the steps.
    pub count: usize,
    /// Pair-off's lots.
    pub cancelled: u64,
    /// The state after the call; on a refusal it is as it came.
    pub state: State,
}

/// What a run gives: why it stopped, what it answered, and the state after it.
#[repr(C)]
#[derive(Clone, Copy, Debug, PartialEq, Eq)]
#[must_use = "a refusal would be missed"]
pub struct Ran {
    /// 1 or 2, with nothing done; the reader's number, of the words from those used on; or 0, at the end of the
    /// words or where no room is left.
    pub refusal: u32,
    /// The instructions that are answered.
    pub answered: usize,
    /// The words that they have.
    pub used: usize,
    /// The words of their records.
    pub written: usize,
    /// The state after them.
    pub state: State,
}

/// What is seen of an account.
#[repr(C)]
#[derive(Clone, Copy, Debug, PartialEq, Eq)]
#[must_use = "a refusal would be missed"]
pub struct Seen {
    /// The refusal's number, 0 where it is done; on a refusal all else is 0.
    pub refusal: u32,
    /// 1 where there is such an entry, else 0.
    pub some: u32,
    /// The account's net in the issue.
    pub net: i32,
    /// The account's charge.
    pub charge: i64,
    /// The entry; 0 throughout where there is none.
    pub entry: Entry,
}

/// The two structs by which a book is lent.
macro_rules! lent {
    ({} $($(#[$has:meta])* $column:ident: $place:ty, $places:ident;)*) => {
        /// A book as it is lent to a question: its state, and nine columns of any length.
        #[derive(Clone, Copy, Debug, PartialEq, Eq)]
        pub struct Columns<'a> {
            /// The day.
            pub day: u16,
            /// The phase's number; above 2 it is none.
            pub phase: u32,
            /// The number of fail entries.
            pub entries: usize,
            /// The change-over day; 0 where none is named.
            pub turn: u32,
            /// The issues' marks; any number but 0 is one.
            pub marks: &'a [u8; ISSUES],
            $($(#[$has])* pub $column: &'a [$place],)*
        }

        /// A book as it is lent to a call, which may change it.
        #[derive(Debug, PartialEq, Eq)]
        pub struct ColumnsMut<'a> {
            /// The day.
            pub day: &'a mut u16,
            /// The phase's number; above 2 it is none.
            pub phase: &'a mut u32,
            /// The number of fail entries.
            pub entries: &'a mut usize,
            /// The change-over day; 0 where none is named.
            pub turn: &'a mut u32,
            /// The issues' marks; any number but 0 is one.
            pub marks: &'a mut [u8; ISSUES],
            $($(#[$has])* pub $column: &'a mut [$place],)*
        }
    };
}

columns! { lent! {} }

impl Columns<'_> {
    /// Its state.
    pub(crate) fn state(&self) -> State {
        let Columns { day, phase, entries, turn, marks, .. } = *self;
        State { day, phase, entries, turn, marks: *marks }
    }
}

impl ColumnsMut<'_> {
    /// Its state.
    fn state(&self) -> State {
        State {
            day: *self.day,
            phase: *self.phase,
            entries: *self.entries,
            turn: *self.turn,
            marks: *self.marks,
        }
    }

    /// Puts a state in the place of its own.
    pub(crate) fn put(&mut self, state: State) {
        *self.day = state.day;
        *self.phase = state.phase;
        *self.entries = state.entries;
        *self.turn = state.turn;
        *self.marks = state.marks;
    }
}

/// A call's answer.
#[derive(Clone, Copy, Debug, PartialEq, Eq)]
#[must_use = "a refusal would be missed"]
pub struct Answer {
    /// The refusal's number, 0 where it is done.
    pub refusal: u32,
    /// The records written; for pair-off, the steps.
    pub count: usize,
    /// Pair-off's lots.
    pub cancelled: u64,
}

/// The unit question's answer.
#[derive(Clone, Copy, Debug, PartialEq, Eq)]
#[must_use = "a refusal would be missed"]
pub struct UnitAnswer {
    /// The refusal's number, 0 where it is answered.
    pub refusal: u32,
    /// 1 where there is such a unit, else 0.
    pub found: u32,
    /// The account that the unit is due to.
    pub account: u32,
    /// Its lots.
    pub lots: u32,
}

/// What is told of a unit.
#[derive(Clone, Copy, Debug, PartialEq, Eq)]
#[must_use = "a refusal would be missed"]
pub struct StatusAnswer {
    /// The refusal's number, 0 where it is answered.
    pub refusal: u32,
    /// 1 handed, 2 waiting, 3 partly failed, 4 wholly failed; 0 on a refusal.
    pub case: u32,
    /// The lots that it waits for or lacks; 0 for 1 and 4.
    pub lots: u32,
}

/// What came of a simulated desk; on a refusal all but its number are 0.
#[derive(Clone, Copy, Debug, PartialEq, Eq)]
#[must_use = "a refusal would be missed"]
pub struct Simulated {
    /// The refusal's number, 0 where it is done.
    pub refusal: u32,
    /// The deliveries made.
    pub deliveries: u64,
    /// The rounds, the stopping one among them.
    pub rounds: u64,
    /// Of each issue the lots still owed.
    pub owed: [u32; ISSUES],
}

/// A ticket's numbers: issue, unit, account, lots, day, count.
pub type TicketNumbers = [u32; 6];

/// The answer to asking for a lift.
#[derive(Clone, Copy, Debug, PartialEq, Eq)]
#[must_use = "a refusal would be missed"]
pub struct AskAnswer {
    /// The refusal's number, 0 where there is a ticket.
    pub refusal: u32,
    /// The ticket, or six zeros.
    pub ticket: TicketNumbers,
}

/// The reader's answer.
#[derive(Clone, Copy, Debug, PartialEq, Eq)]
#[must_use = "a refusal would be missed"]
pub struct ReadAnswer {
    /// The refusal's number, 0 where an instruction was read.
    pub refusal: u32,
    /// The instruction's fields.
    pub fields: Fields,
    /// Its count of words.
    pub count: usize,
}

/// The writer's answer.
#[derive(Clone, Copy, Debug, PartialEq, Eq)]
#[must_use = "a refusal would be missed"]
pub struct WriteAnswer {
    /// The refusal's number, 0 where the instruction was written.
    pub refusal: u32,
    /// The count of words.
    pub count: usize,
}

/// Calls a function on a book: `function(before; book.pointer; behind)` puts each column's pointer and
/// length between what stands before and behind them.
macro_rules! with_columns {
    ($($call:tt)*) => { columns! { put! { $($call)* } } };
}

macro_rules! put {
    (
        { $function:ident($($before:expr),*; $book:ident.$pointer:ident; $($behind:expr),*) }
        $($(#[$has:meta])* $column:ident: $place:ty, $places:ident;)*
    ) => {
        $function(
            $($before,)*
            $($book.$column.$pointer(), $book.$column.len(),)*
            $($behind,)*
        )
    };
}

/// Is the book sound? 1 if it is, 0 if not.
#[must_use = "a damaged book would be missed"]
pub fn sound(book: &Columns) -> u32 {
    // SAFETY: each column is given with its length; they live through the call, which reads them alone.
    unsafe { with_columns!(day_sound(book.state(); book.as_ptr;)) }
}

/// The k-th unit of an issue, k from 0.
pub fn unit(book: &Columns, issue: u32, k: u32) -> UnitAnswer {
    let mut answer = [u32::MAX; 3];
    // SAFETY: each column is given with its length; they live through the call, which reads them
    // alone; the answer has the three words that are written.
    let refusal =
        unsafe { with_columns!(day_unit(book.state(); book.as_ptr; issue, k, &mut answer)) };
    let [found, account, lots] = answer;
    UnitAnswer { refusal, found, account, lots }
}

/// The k-th unit of an issue, k from 0, for a caller.
pub fn unit_as(caller: &Caller, book: &Columns, issue: u32, k: u32) -> UnitAnswer {
    let mut answer = [u32::MAX; 3];
    // SAFETY: as for `unit`; the caller goes in by value.
    let refusal = unsafe {
        with_columns!(day_unit_as(*caller, book.state(); book.as_ptr; issue, k, &mut answer))
    };
    let [found, account, lots] = answer;
    UnitAnswer { refusal, found, account, lots }
}

/// What is told of the k-th unit of an issue, k from 0.
pub fn status(book: &Columns, issue: u32, k: u32) -> StatusAnswer {
    let mut answer = [u32::MAX; 2];
    // SAFETY: each column is given with its length; they live through the call, which reads them
    // alone; the answer has the two numbers that are written.
    let refusal =
        unsafe { with_columns!(day_status(book.state(); book.as_ptr; issue, k, &mut answer)) };
    let [case, lots] = answer;
    StatusAnswer { refusal, case, lots }
}

/// What is told of the k-th unit of an issue, k from 0, for a caller.
pub fn status_as(caller: &Caller, book: &Columns, issue: u32, k: u32) -> StatusAnswer {
    let mut answer = [u32::MAX; 2];
    // SAFETY: as for `status`; the caller goes in by value.
    let refusal = unsafe {
        with_columns!(day_status_as(*caller, book.state(); book.as_ptr; issue, k, &mut answer))
    };
    let [case, lots] = answer;
    StatusAnswer { refusal, case, lots }
}

/// A plan tried on the simulated desk: the settlement account of each netting account (64), the
/// inventories (issue × 16 + settlement account, 256) and the size of a unit.
pub fn simulate(book: &Columns, settles: &[u32], inventories: &[u32], size: u32) -> Simulated {
    let (mut deliveries, mut rounds, mut owed) = (u64::MAX, u64::MAX, [u32::MAX; ISSUES]);
    let (accounts, held) = (settles.as_ptr(), inventories.as_ptr());
    // SAFETY: columns, settlement accounts and inventories are given with their lengths and live
    // through the call, which reads them alone; the three places that it writes are of this function.
    let refusal = unsafe {
        with_columns!(day_simulate(
            book.state(); book.as_ptr; accounts, settles.len(), held, inventories.len(), size,
            &mut deliveries, &mut rounds, &mut owed
        ))
    };
    Simulated { refusal, deliveries, rounds, owed }
}

/// A plan tried on the simulated desk, for a caller.
pub fn simulate_as(
    caller: &Caller,
    book: &Columns,
    settles: &[u32],
    inventories: &[u32],
    size: u32,
) -> Simulated {
    let (mut deliveries, mut rounds, mut owed) = (u64::MAX, u64::MAX, [u32::MAX; ISSUES]);
    let (accounts, held) = (settles.as_ptr(), inventories.as_ptr());
    // SAFETY: as for `simulate`; the caller goes in by value.
    let refusal = unsafe {
        with_columns!(day_simulate_as(
            *caller, book.state(); book.as_ptr; accounts, settles.len(), held, inventories.len(), size,
            &mut deliveries, &mut rounds, &mut owed
        ))
    };
    Simulated { refusal, deliveries, rounds, owed }
}

/// Writes the snapshot of a sound book: 0, or 1 (the output has fewer words) or 5 (no sound book) with the
/// output as it came.
#[must_use = "a book that is not saved would be missed"]
pub fn save(book: &Columns, out: &mut [u32]) -> u32 {
    // SAFETY: columns and output are given with their lengths and live through the call; the output, lent
    // as `&mut`, overlaps none of them.
    unsafe { with_columns!(day_save(book.state(); book.as_ptr; out.as_mut_ptr(), out.len())) }
}

/// Opens a snapshot in the columns of a book: 0, or 1 length, 2 version, 3 checksum, 4 a number that does not
/// fit its field, 5 not sound, with the book as it came.
#[must_use = "a book that is not opened would be missed"]
pub fn open(words: &[u32], book: &mut ColumnsMut) -> u32 {
    // SAFETY: words and columns are given with their lengths and live through the call; each column is a
    // reference of its own.
    let opened = unsafe { with_columns!(day_open(words.as_ptr(), words.len(); book.as_mut_ptr;)) };
    if opened.reason == 0 {
        book.put(opened.state);
    }
    opened.reason
}

/// The call of an instruction given by its fields, made in place on any book.
pub fn call(book: &mut ColumnsMut, fields: &Fields, quotes: &[u32], out: &mut [u32]) -> Answer {
    let [kind, a, b, c, d] = *fields;
    // SAFETY: columns, quotes and output are given with their lengths. All live through the call, and
    // none of those that it may write overlaps another: each is a reference of its own.
    let turned = unsafe {
        with_columns!(day_call(
            kind, a, b, c, d, quotes.as_ptr(), quotes.len(), book.state();
            book.as_mut_ptr; out.as_mut_ptr(), out.len()
        ))
    };
    answered(book, turned)
}

/// The instructions of some words, made in place on any book one after another: of each three numbers in the
/// answers, and all their records in the output.
pub fn run(book: &mut ColumnsMut, words: &[u32], answers: &mut [u64], out: &mut [u32]) -> Ran {
    // SAFETY: columns, words, answers and output are given with their lengths. All live through the call, and
    // none of those that it may write overlaps another: each is a reference of its own.
    let ran = unsafe {
        with_columns!(day_run(
            words.as_ptr(), words.len(), book.state();
            book.as_mut_ptr; answers.as_mut_ptr(), answers.len(), out.as_mut_ptr(), out.len()
        ))
    };
    book.put(ran.state);
    ran
}

/// The call of an instruction by a caller; the answer is the house's.
pub fn call_as(
    caller: &Caller,
    book: &mut ColumnsMut,
    fields: &Fields,
    quotes: &[u32],
    out: &mut [u32],
) -> Answer {
    let [kind, a, b, c, d] = *fields;
    // SAFETY: as for `call`; the caller goes in by value.
    let turned = unsafe {
        with_columns!(day_call_as(
            *caller, kind, a, b, c, d, quotes.as_ptr(), quotes.len(), book.state();
            book.as_mut_ptr; out.as_mut_ptr(), out.len()
        ))
    };
    answered(book, turned)
}

/// Puts the state after a call in its place; the answer without it.
fn answered(book: &mut ColumnsMut, turned: Turned) -> Answer {
    book.put(turned.state);
    let Turned { refusal, count, cancelled, .. } = turned;
    Answer { refusal, count, cancelled }
}

/// The ticket for a lift of an issue's unit, by its number.
pub fn ask(book: &Columns, issue: u32, unit: u32) -> AskAnswer {
    let mut ticket = [u32::MAX; 6];
    // SAFETY: each column is given with its length; they live through the call, which reads them
    // alone; the ticket has the six numbers that are written.
    let refusal =
        unsafe { with_columns!(day_ask(book.state(); book.as_ptr; issue, unit, &mut ticket)) };
    AskAnswer { refusal, ticket }
}

/// The ticket for a lift, for a caller.
pub fn ask_as(caller: &Caller, book: &Columns, issue: u32, unit: u32) -> AskAnswer {
    let mut ticket = [u32::MAX; 6];
    // SAFETY: as for `ask`; the caller goes in by value.
    let refusal = unsafe {
        with_columns!(day_ask_as(*caller, book.state(); book.as_ptr; issue, unit, &mut ticket))
    };
    AskAnswer { refusal, ticket }
}

/// The lift of a ticket, made in place on any book; of the book only the lifts are written.
pub fn commit(book: &mut ColumnsMut, ticket: &TicketNumbers, out: &mut [u32]) -> Answer {
    let mut count = NOT_WRITTEN;
    // SAFETY: columns and output are given with their lengths. All live through the call, and neither
    // of the two that it may write overlaps another: each is a reference of its own.
    let refusal = unsafe {
        with_columns!(day_commit(
            ticket, book.state(); book.as_mut_ptr; out.as_mut_ptr(), out.len(), &mut count
        ))
    };
    Answer { refusal, count, cancelled: 0 }
}

/// The lift of a ticket by a caller.
pub fn commit_as(
    caller: &Caller,
    book: &mut ColumnsMut,
    ticket: &TicketNumbers,
    out: &mut [u32],
) -> Answer {
    let mut count = NOT_WRITTEN;
    // SAFETY: as for `commit`; the caller goes in by value.
    let refusal = unsafe {
        with_columns!(day_commit_as(
            *caller, ticket, book.state(); book.as_mut_ptr; out.as_mut_ptr(), out.len(), &mut count
        ))
    };
    Answer { refusal, count, cancelled: 0 }
}

/// An account read by a caller: its net in the issue, its charge and its k-th entry there, k from 0.
pub fn look(caller: &Caller, book: &Columns, issue: u32, account: u32, k: u32) -> Seen {
    // SAFETY: each column is given with its length; they live through the call, which reads them alone.
    unsafe { with_columns!(day_look(*caller, book.state(); book.as_ptr; issue, account, k)) }
}

/// Reads the instruction that begins at the first word.
#[inline]
pub fn read(words: &[u32]) -> ReadAnswer {
    let (mut fields, mut count) = ([u32::MAX; 5], NOT_WRITTEN);
    // SAFETY: the words are given with their length, and the fields have the five that are written.
    let refusal = unsafe { day_read(words.as_ptr(), words.len(), &mut fields, &mut count) };
    ReadAnswer { refusal, fields, count }
}

/// The quotes in the words after a roll's head, sixteen prices and then sixteen accrued amounts,
/// issue 0 first in both, 0 where a word is missing.
pub fn quotes(words: &[u32]) -> [u32; QUOTES] {
    let mut quotes = [u32::MAX; QUOTES];
    // SAFETY: the words are given with their length, and there are 32 quotes to write.
    unsafe { day_quotes(words.as_ptr(), words.len(), &mut quotes) };
    quotes
}

/// Writes an instruction given by its fields, with the quotes of a roll.
pub fn write(fields: &Fields, quotes: &[u32], out: &mut [u32]) -> WriteAnswer {
    let [kind, a, b, c, d] = *fields;
    let mut count = NOT_WRITTEN;
    let (words, length) = (out.as_mut_ptr(), out.len());
    // SAFETY: quotes and output are given with their lengths and live through the call.
    let refusal = unsafe {
        day_write(kind, a, b, c, d, quotes.as_ptr(), quotes.len(), words, length, &mut count)
    };
    WriteAnswer { refusal, count }
}

/// The value of lots at a price and an accrued amount: the refusal's number, and the yen.
#[must_use = "a refusal would be missed"]
pub fn value(lots: u32, price: u32, accrued: u32) -> (u32, u64) {
    let mut yen = NO_YEN;
    // SAFETY: the library writes one u64 through the reference, which lives until after the call.
    let refusal = unsafe { day_value(lots, price, accrued, &mut yen) };
    (refusal, yen)
}

/// The charge on that value for days at a rate: the refusal's number, and the yen.
#[must_use = "a refusal would be missed"]
pub fn charge(lots: u32, price: u32, days: u32, rate: u32, accrued: u32) -> (u32, u64) {
    let mut yen = NO_YEN;
    // SAFETY: the library writes one u64 through the reference, which lives until after the call.
    let refusal = unsafe { day_charge(lots, price, days, rate, accrued, &mut yen) };
    (refusal, yen)
}
