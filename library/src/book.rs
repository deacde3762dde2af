//! The book: day, phase, marks, change-over day, nets, delivered lots, lifts, charges and the ledger of
//! fails, in plain columns.

use crate::raw::{Columns, ColumnsMut};
use crate::{Entry, ACCOUNTS, ENTRIES, ISSUES, LIFTS, LIFT_PLACES, LIFT_WORDS, PLACES};

/// The phase of the day as its number; any number can be held, and one above 2 is damage.
#[derive(Clone, Copy, Debug, PartialEq, Eq)]
pub struct Phase(pub u32);

impl Phase {
    /// Trades are taken.
    pub const TAKING: Phase = Phase(0);
    /// Lots are delivered and handed over.
    pub const SETTLING: Phase = Phase(1);
    /// What did not come is failed; the day can roll.
    pub const CUT: Phase = Phase(2);

    /// Its name, if it is one of the three.
    pub fn name(self) -> Option<&'static str> {
        match self {
            Phase::TAKING => Some("Taking"),
            Phase::SETTLING => Some("Settling"),
            Phase::CUT => Some("Cut"),
            _ => None,
        }
    }
}

/// One lift: the place of a unit in the order before it was moved, and its place after.
#[derive(Clone, Copy, Debug, PartialEq, Eq)]
pub struct Lift {
    /// The place before.
    pub old: u32,
    /// The place after.
    pub new: u32,
}

/// The book, and what passes its columns on.
macro_rules! book {
    ({} $($(#[$has:meta])* $column:ident: $place:ty, $places:ident;)*) => {
        /// A book in plain columns.
        ///
        /// Every field can be set to any number. The calls change it only where it is sound.
        #[derive(Clone, Debug, PartialEq, Eq)]
        pub struct Book {
            /// The day.
            pub day: u16,
            /// The phase of the day.
            pub phase: Phase,
            /// The number of fail entries, which are the first of the ledger's five columns.
            pub entries: usize,
            /// The issues' marks: 0 where it takes any lots, any other number where it takes even ones
            /// only.
            pub marks: [u8; ISSUES],
            /// The first day on which full units are dealt in turn; 0 where none is named.
            pub turn: u32,
            $($(#[$has])* pub $column: [$place; $places],)*
        }

        impl Book {
            /// A fresh book: day 0, Taking, all zero, no issue marked, no change-over day, ledger empty.
            pub fn fresh() -> Book {
                Book {
                    day: 0,
                    phase: Phase::TAKING,
                    entries: 0,
                    marks: [0; ISSUES],
                    turn: 0,
                    $($column: [0; $places],)*
                }
            }

            /// The book's columns, to be read.
            pub fn columns(&self) -> Columns<'_> {
                Columns {
                    day: self.day,
                    phase: self.phase.0,
                    entries: self.entries,
                    marks: &self.marks,
                    turn: self.turn,
                    $($column: &self.$column,)*
                }
            }

            /// The book's columns, to be changed.
            pub fn columns_mut(&mut self) -> ColumnsMut<'_> {
                ColumnsMut {
                    day: &mut self.day,
                    phase: &mut self.phase.0,
                    entries: &mut self.entries,
                    marks: &mut self.marks,
                    turn: &mut self.turn,
                    $($column: &mut self.$column,)*
                }
            }
        }
    };
}

columns! { book! {} }

/// The place of an issue and account in the columns of nets and delivered lots, if both are in range.
pub fn place(issue: u32, account: u32) -> Option<usize> {
    let (issue, account) = (issue as usize, account as usize);
    (issue < ISSUES && account < ACCOUNTS).then_some(issue * ACCOUNTS + account)
}

impl Book {
    /// Are full units dealt in turn today?
    pub fn deals_in_turn(&self) -> bool {
        self.turn != 0 && self.turn <= u32::from(self.day)
    }

    /// Does the issue take even lots only? An issue above 15 does not.
    pub fn is_marked(&self, issue: u32) -> bool {
        self.marks.get(issue as usize).is_some_and(|&mark| mark != 0)
    }

    /// An account's net in an issue; 0 where one of them is out of range.
    pub fn net(&self, issue: u32, account: u32) -> i32 {
        place(issue, account).map_or(0, |at| self.nets[at])
    }

    /// The lots that an account delivered today in an issue; 0 where one of them is out of range.
    pub fn delivered(&self, issue: u32, account: u32) -> u32 {
        place(issue, account).map_or(0, |at| self.delivered[at])
    }

    /// The lots delivered today in an issue, all accounts together.
    pub fn delivered_total(&self, issue: u32) -> u64 {
        (0..ACCOUNTS as u32).map(|account| u64::from(self.delivered(issue, account))).sum()
    }

    /// The lifts that stand for an issue, in the order in which they were made; of a number above 8,
    /// the eight, and none where the issue is out of range.
    pub fn lifts(&self, issue: u32) -> impl Iterator<Item = Lift> + '_ {
        let words = self.lift_words(issue);
        let number = words.first().map_or(0, |&number| (number as usize).min(LIFTS));
        let places = words.get(2..).unwrap_or_default().chunks_exact(2);
        places.take(number).map(|place| Lift { old: place[0], new: place[1] })
    }

    /// The count of the day's accepted deliveries and lifts in an issue; 0 where it is out of range.
    pub fn count(&self, issue: u32) -> u32 {
        self.lift_words(issue).get(1).copied().unwrap_or(0)
    }

    /// An issue's words of lifts; none where it is out of range.
    fn lift_words(&self, issue: u32) -> &[u32] {
        let mut issues = self.lifts.chunks_exact(LIFT_WORDS);
        issues.nth(issue as usize).unwrap_or_default()
    }

    /// The used entries of the ledger, in order; of a count above 2,048, the 2,048 there are.
    pub fn ledger(&self) -> impl Iterator<Item = Entry> + '_ {
        (0..self.entries.min(ENTRIES)).filter_map(|at| self.entry(at))
    }

    /// The entry at a place of the ledger, used or not, if there is such a place.
    pub fn entry(&self, at: usize) -> Option<Entry> {
        Some(Entry {
            issue: *self.issues.get(at)?,
            from: *self.froms.get(at)?,
            to: *self.tos.get(at)?,
            lots: *self.lots.get(at)?,
            day: *self.days.get(at)?,
        })
    }
}

impl Default for Book {
    fn default() -> Book {
        Book::fresh()
    }
}

#[cfg(test)]
mod tests {
    use super::*;
    use crate::{calls, Done, Refusal, Status, Ticket};

    /// A book of the largest numbers everywhere.
    fn damaged() -> Book {
        Book {
            day: u16::MAX,
            phase: Phase(u32::MAX),
            entries: usize::MAX,
            marks: [u8::MAX; ISSUES],
            turn: u32::MAX,
            nets: [i32::MIN; PLACES],
            delivered: [u32::MAX; PLACES],
            lifts: [u32::MAX; LIFT_PLACES],
            charges: [i64::MIN; ACCOUNTS],
            issues: [u8::MAX; ENTRIES],
            froms: [u8::MAX; ENTRIES],
            tos: [u8::MAX; ENTRIES],
            lots: [u32::MAX; ENTRIES],
            days: [u16::MAX; ENTRIES],
        }
    }

    #[test]
    fn a_damaged_book_can_be_looked_at() {
        let book = damaged();
        assert_eq!(book.ledger().count(), ENTRIES);
        assert_eq!(book.delivered_total(15), 64 * u64::from(u32::MAX));
        assert_eq!((book.net(15, 63), book.net(16, 0), book.net(0, 64)), (i32::MIN, 0, 0));
        assert_eq!((book.delivered(u32::MAX, 0), book.delivered_total(u32::MAX)), (0, 0));
        assert_eq!((book.entry(ENTRIES), book.entry(usize::MAX)), (None, None));
        assert_eq!((book.lifts(15).count(), book.lifts(16).count()), (LIFTS, 0));
        assert_eq!((book.count(15), book.count(u32::MAX)), (u32::MAX, 0));
        assert_eq!([0, 15, 16, u32::MAX].map(|at| book.is_marked(at)), [true, true, false, false]);
        assert_eq!(book.phase.name(), None);
    }

    #[test]
    fn a_damaged_book_is_refused_and_stays_as_it_was() {
        let (mut book, mut out) = (damaged(), [7; crate::OUTPUT_WORDS]);
        assert!(!calls::sound(&book));
        assert_eq!(calls::unit(&book, 0, 0), Err(Refusal::Book));
        assert_eq!(calls::ask(&book, 0, 0), Err(Refusal::Book));
        assert_eq!(calls::status(&book, 0, 0), Err(Refusal::Book));
        let answers = [
            calls::trade(&mut book, 0, 1, 2, 3),
            calls::close(&mut book),
            calls::deliver(&mut book, 0, 1, 2, &mut out),
            calls::commit(&mut book, &Ticket::default(), &mut out),
            calls::cutoff(&mut book, &mut out),
            calls::resolve(&mut book, 0, 1, 2, &mut out),
            calls::pair_off(&mut book, 0, 1),
            calls::roll(&mut book, 1, 300, &[100_000; 16]),
            calls::mark(&mut book, 0, 0),
            calls::turn(&mut book, 1),
        ];
        assert_eq!(answers, [Err(Refusal::Book); 10]);
        assert!(book == damaged() && out == [7; crate::OUTPUT_WORDS]);
    }

    #[test]
    fn a_fresh_book_is_sound_and_its_places_are_its_own() {
        assert!(calls::sound(&Book::default()));
        assert_eq!((place(0, 0), place(15, 63), place(1, 0)), (Some(0), Some(1_023), Some(64)));
        assert_eq!((place(16, 0), place(0, 64), place(u32::MAX, u32::MAX)), (None, None, None));
    }

    /// A day in Settling with two units of account 1, and of account 2 one that its deliverer covers.
    fn ring() -> (Book, [u32; crate::OUTPUT_WORDS]) {
        let (mut book, mut out) = (Book::fresh(), [7; crate::OUTPUT_WORDS]);
        calls::trade(&mut book, 3, 8, 1, 150_000).unwrap();
        calls::trade(&mut book, 3, 9, 2, 40_000).unwrap();
        calls::close(&mut book).unwrap();
        assert_eq!(calls::deliver(&mut book, 3, 9, 40_000, &mut out), Ok(Done::default()));
        (book, out)
    }

    #[test]
    fn a_unit_is_lifted_by_its_ticket_and_the_book_shows_it() {
        let (mut book, mut out) = ring();
        let ticket = Ticket { issue: 3, unit: 2, account: 2, lots: 40_000, day: 0, count: 1 };
        assert_eq!(calls::ask(&book, 3, 2), Ok(ticket));
        let handed = Done { count: 1, cancelled: 0 };
        assert_eq!(calls::commit(&mut book, &ticket, &mut out), Ok(handed));
        assert_eq!(out[..2], [0xa300_2000, 0x8000_9c40]);
        assert_eq!(book.lifts(3).collect::<Vec<_>>(), [Lift { old: 2, new: 0 }]);
        assert_eq!(
            (book.count(3), book.lifts[3 * LIFT_WORDS..][..4].to_vec()),
            (2, vec![1, 2, 2, 0])
        );
        let unit = calls::unit(&book, 3, 0).unwrap().map(|unit| unit.account);
        assert_eq!((unit, calls::sound(&book)), (Some(2), true));
    }

    #[test]
    fn a_marked_issue_takes_even_lots_alone() {
        let mut book = Book::fresh();
        calls::mark(&mut book, 3, 1).unwrap();
        assert_eq!((book.is_marked(3), book.is_marked(4), book.marks[3]), (true, false, 1));
        let marked = book.clone();
        assert_eq!(calls::trade(&mut book, 3, 8, 1, 7), Err(Refusal::OddLots));
        assert!(book == marked);
        assert_eq!(calls::trade(&mut book, 3, 8, 1, 8), Ok(Done::default()));
        assert_eq!(calls::mark(&mut book, 3, 0), Err(Refusal::InUse));
        assert_eq!(calls::mark(&mut book, 16, 0), Err(Refusal::Issue));
        assert_eq!(calls::trade(&mut book, 3, 1, 8, 8), Ok(Done::default()));
        assert_eq!(calls::mark(&mut book, 3, 0), Ok(Done::default()));
        assert!(book == Book::fresh());
    }

    #[test]
    fn full_units_are_dealt_in_turn_from_the_named_day_on() {
        let (mut book, mut out) = (Book::fresh(), [7; crate::OUTPUT_WORDS]);
        assert_eq!(calls::turn(&mut book, 0), Err(Refusal::ChangeOver));
        assert_eq!(calls::turn(&mut book, 5), Ok(Done::default()));
        assert_eq!(calls::turn(&mut book, 1), Ok(Done::default()));
        let account = |book: &Book, k| calls::unit(book, 3, k).unwrap().map(|unit| unit.account);
        let accounts = |book: &Book| [0, 1, 2].map(|k| account(book, k));
        let sell = |book: &mut Book| {
            calls::trade(book, 3, 8, 1, 200_000).unwrap();
            calls::trade(book, 3, 8, 2, 100_000).unwrap();
        };
        sell(&mut book);
        assert_eq!((book.deals_in_turn(), accounts(&book)), (false, [Some(1), Some(1), Some(2)]));
        calls::close(&mut book).unwrap();
        calls::cutoff(&mut book, &mut out).unwrap();
        let mut quotes = [0; 32];
        quotes[..16].fill(100_000);
        calls::roll(&mut book, 1, 300, &quotes).unwrap();
        sell(&mut book);
        assert_eq!((book.deals_in_turn(), accounts(&book)), (true, [Some(1), Some(2), Some(1)]));
        assert_eq!(calls::turn(&mut book, 9), Err(Refusal::ChangeOver));
    }

    #[test]
    fn a_lift_that_is_refused_changes_nothing() {
        let (mut book, mut out) = ring();
        let ticket = calls::ask(&book, 3, 2).unwrap();
        let (before, words) = (book.clone(), out);
        assert_eq!(calls::ask(&book, 3, 3), Err(Refusal::Unit));
        let stale = Ticket { count: 0, ..ticket };
        let missing = Ticket { unit: 3, ..ticket };
        for (ticket, refusal) in [(stale, Refusal::Ticket), (missing, Refusal::Unit)] {
            assert_eq!(calls::commit(&mut book, &ticket, &mut out), Err(refusal));
        }
        assert_eq!(calls::commit(&mut book, &ticket, &mut out[1..]), Err(Refusal::Output));
        assert!(book == before && out == words);
    }

    /// What is told of units 0 to 2 of issue 3.
    fn told(book: &Book) -> [Option<Status>; 3] {
        [0, 1, 2].map(|k| calls::status(book, 3, k).ok())
    }

    #[test]
    fn the_status_of_each_unit_through_a_day() {
        use Status::{Handed, PartlyFailed, Waiting, WhollyFailed};
        let waiting = |lots| Some(Waiting { lots });
        let (mut book, mut out) = ring();
        assert_eq!(told(&book), [waiting(60_000), waiting(110_000), waiting(150_000)]);
        let ticket = calls::ask(&book, 3, 2).unwrap();
        calls::commit(&mut book, &ticket, &mut out).unwrap();
        assert_eq!(told(&book), [Some(Handed), waiting(100_000), waiting(150_000)]);
        calls::deliver(&mut book, 3, 8, 99_999, &mut out).unwrap();
        assert_eq!(told(&book), [Some(Handed), waiting(1), waiting(50_001)]);
        calls::cutoff(&mut book, &mut out).unwrap();
        let cut = [Some(Handed), Some(PartlyFailed { lots: 1 }), Some(WhollyFailed)];
        assert_eq!(told(&book), cut);
        calls::resolve(&mut book, 3, 8, 50_001, &mut out).unwrap();
        assert_eq!((told(&book), book.entries), (cut, 0));
        assert_eq!(calls::status(&book, 3, 3), Err(Refusal::Unit));
        assert_eq!(calls::status(&book, 16, 0), Err(Refusal::Issue));
        let mut quotes = [0; 32];
        quotes[..16].fill(100_000);
        calls::roll(&mut book, 1, 300, &quotes).unwrap();
        assert_eq!(calls::status(&book, 3, 0), Err(Refusal::Phase));
    }
}
