//! The units of an issue in their order, lifted or not, like ones together; and as they fail at a cutoff.

use settlement_day::calls::{self, Unit};
use settlement_day::{Book, Status};
use tape::units::{Run, FULL};

/// Like units one after another: of one account, of so many lots each, and what is told of them, if the
/// phase is one in which it is.
#[derive(Clone, Copy, Debug, PartialEq, Eq)]
pub struct Like {
    pub first: u32,
    pub last: u32,
    pub unit: Unit,
    pub status: Option<Status>,
}

/// The units of an issue, one by one: place and unit.
pub fn units(book: &Book, issue: u32) -> impl Iterator<Item = (u32, Unit)> + '_ {
    (0..).map_while(move |k| calls::unit(book, issue, k).ok().flatten().map(|unit| (k, unit)))
}

/// The units of an issue, like ones together. Of units that wait, the lots are those of the first.
pub fn order(book: &Book, issue: u32) -> Vec<Like> {
    let mut order: Vec<Like> = Vec::new();
    for (k, unit) in units(book, issue) {
        let status = calls::status(book, issue, k).ok();
        let like = |other: &&mut Like| other.unit == unit && alike(other.status, status);
        match order.last_mut().filter(like) {
            Some(last) => last.last = k,
            None => order.push(Like { first: k, last: k, unit, status }),
        }
    }
    order
}

/// Is the same told of two units, but for the lots that they wait for?
fn alike(one: Option<Status>, other: Option<Status>) -> bool {
    match (one, other) {
        (Some(Status::Waiting { .. }), Some(Status::Waiting { .. })) => true,
        _ => one == other,
    }
}

/// The units from a place on as they fail: an account's full units together, at the place of the first of
/// them.
pub fn failing(book: &Book, issue: u32, from: u32) -> Vec<Run> {
    let mut stretches: Vec<Vec<Run>> = Vec::new();
    for (first, unit) in units(book, issue).skip(from as usize) {
        let run = Run { first, count: 1, account: unit.account, lots: unit.lots, due: 0 };
        let same = |other: &&mut Vec<Run>| {
            let other = &other[0];
            unit.lots == FULL && other.lots == FULL && other.account == unit.account
        };
        match stretches.iter_mut().find(same) {
            Some(stretch) => stretch.push(run),
            None => stretches.push(vec![run]),
        }
    }
    stretches.concat()
}

#[cfg(test)]
mod tests {
    use super::*;
    use settlement_day::{Ticket, OUTPUT_WORDS};

    /// P5 and P6, then unit 5 of account 2 lifted.
    fn lifted() -> Book {
        let (mut book, mut out) = (Book::fresh(), [0; OUTPUT_WORDS]);
        for (from, to, lots) in [(4, 1, 230_000), (5, 2, 250_000), (5, 3, 150_000)] {
            assert!(calls::trade(&mut book, 0, from, to, lots).is_ok());
        }
        assert!(calls::close(&mut book).is_ok());
        let handed = |done: calls::Done| done.count;
        assert_eq!(calls::deliver(&mut book, 0, 5, 345_000, &mut out).map(handed), Ok(3));
        let ticket = Ticket { issue: 0, unit: 7, account: 1, lots: 30_000, day: 0, count: 1 };
        assert_eq!(calls::commit(&mut book, &ticket, &mut out).map(handed), Ok(1));
        book
    }

    #[test]
    fn like_units_are_together_in_the_lifted_order() {
        let told: Vec<(u32, u32, u32)> = order(&lifted(), 0)
            .iter()
            .map(|like| (like.first, like.last, like.unit.account))
            .collect();
        let places = [(0, 1, 2), (2, 2, 1), (3, 3, 1), (4, 4, 1), (5, 5, 3), (6, 6, 2), (7, 7, 3)];
        assert_eq!(told, places);
        assert_eq!(order(&lifted(), 0)[2].status, Some(Status::Handed));
        assert_eq!(order(&lifted(), 0)[3].status, Some(Status::Waiting { lots: 85_000 }));
        assert!(order(&Book::fresh(), 0).is_empty());
    }

    #[test]
    fn full_units_of_an_account_fail_together() {
        let firsts: Vec<u32> = failing(&lifted(), 0, 1).iter().map(|run| run.first).collect();
        assert_eq!(firsts, [1, 2, 4, 3, 5, 6, 7]);
        let firsts: Vec<u32> = failing(&lifted(), 0, 4).iter().map(|run| run.first).collect();
        assert_eq!(firsts, [4, 5, 6, 7]);
    }
}
