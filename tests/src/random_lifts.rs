//! Random asks and commits: tickets that are fresh, stale, used before, altered or out of range.

use crate::books::Shape;
use crate::random_calls::random_output;
use crate::rng::Rng;
use crate::steps::Call;
use reference::book::Book;
use reference::calls::{ask_on_sound, Ticket};
use reference::units::{handed, units_of, Unit};

/// How many tickets are remembered.
const REMEMBERED: usize = 12;

/// The tickets that were asked for in a list, used or not, the last ones of all days.
#[derive(Clone, Debug, Default)]
pub struct Tickets(Vec<Ticket>);

impl Tickets {
    /// Remembers a ticket in the place of an old one.
    fn keep(&mut self, rng: &mut Rng, ticket: Ticket) {
        if self.0.len() < REMEMBERED {
            self.0.push(ticket);
        } else {
            self.0[rng.range(0, REMEMBERED as u32 - 1) as usize] = ticket;
        }
    }

    /// An ask or a commit on a book.
    pub fn random_call(&mut self, rng: &mut Rng, shape: &Shape, book: &Book) -> Call {
        let issue = *rng.pick(&shape.issues);
        let unit = random_unit(rng, book, issue as usize);
        if rng.chance(1, 4) {
            let issue = if rng.chance(1, 12) { *rng.pick(&[16, 17, 256, u32::MAX]) } else { issue };
            return Call::Ask { issue, unit };
        }
        let fresh = ask_on_sound(book, issue, unit).ticket;
        let ticket = match rng.range(0, 9) {
            0 if !self.0.is_empty() => *rng.pick(&self.0),
            1 => altered(rng, shape, fresh),
            _ => fresh,
        };
        self.keep(rng, fresh);
        Call::Commit { ticket, out: random_output(rng) }
    }
}

/// The number of a unit, mostly of one that is not handed.
fn random_unit(rng: &mut Rng, book: &Book, issue: usize) -> u32 {
    let units = units_of(book, issue);
    let (count, stock) = handed(&units, book.delivered_total(issue));
    let (first, number) = (count as u32, units.len() as u32);
    match rng.range(0, 19) {
        0 => number,
        1 => first.saturating_sub(1),
        2 => rng.next_u32() >> rng.range(0, 31),
        3 => rng.range(0, number),
        4..=5 => first,
        6..=7 => number.saturating_sub(1),
        8..=12 => covered(rng, &units, count, stock).unwrap_or(first),
        13..=16 => not_first_full(rng, &units, count).unwrap_or(first),
        _ => rng.range(first, number.saturating_sub(1).max(first)),
    }
}

/// A unit not handed that the stock covers.
fn covered(rng: &mut Rng, units: &[Unit], count: usize, stock: u64) -> Option<u32> {
    let fits = |&k: &usize| u64::from(units[k].lots) <= stock;
    let found: Vec<usize> = (count..units.len()).filter(fits).collect();
    (!found.is_empty()).then(|| *rng.pick(&found) as u32)
}

/// A full unit of another account than the next unit's, so that full units come to lie apart.
fn not_first_full(rng: &mut Rng, units: &[Unit], count: usize) -> Option<u32> {
    let next = units.get(count)?.account;
    let apart = |&k: &usize| units[k].full && units[k].account != next;
    let found: Vec<usize> = (count..units.len()).filter(apart).collect();
    (!found.is_empty()).then(|| *rng.pick(&found) as u32)
}

/// A ticket with one number altered: by one, out of its range, or by what its low bits do not show.
fn altered(rng: &mut Rng, shape: &Shape, ticket: Ticket) -> Ticket {
    let by = |rng: &mut Rng, number: u32| match rng.range(0, 4) {
        0 => number.wrapping_add(1),
        1 => number.wrapping_sub(1),
        2 => number.wrapping_add(1 << *rng.pick(&[6, 8, 16, 31])),
        3 => 0,
        _ => *rng.pick(&[64, 200, 20_000_001, u32::MAX]),
    };
    let other = *rng.pick(&shape.issues);
    match rng.range(0, 6) {
        0 => Ticket { issue: by(rng, ticket.issue), ..ticket },
        1 => Ticket { issue: other, ..ticket },
        2 => Ticket { unit: by(rng, ticket.unit), ..ticket },
        3 => Ticket { account: by(rng, ticket.account), ..ticket },
        4 => Ticket { lots: by(rng, ticket.lots), ..ticket },
        5 => Ticket { day: by(rng, ticket.day), ..ticket },
        _ => Ticket { count: by(rng, ticket.count), ..ticket },
    }
}

#[cfg(test)]
mod tests {
    use super::*;
    use reference::book::{place, Phase};

    #[test]
    fn fresh_old_and_altered_tickets_are_made() {
        let mut book = Book { phase: Phase::Settling, ..Book::fresh() };
        book.nets[place(2, 1)] = 230_000;
        book.nets[place(2, 2)] = -230_000;
        book.delivered[place(2, 2)] = 140_000;
        let mut rng = Rng::new(1);
        let shape = Shape { issues: vec![2], ..Shape::few(&mut rng) };
        let mut tickets = Tickets::default();
        let mut made = [0; 19];
        for _ in 0..2_000 {
            let call = tickets.random_call(&mut rng, &shape, &book);
            let Call::Commit { ticket, .. } = call else { continue };
            let answer = reference::calls::commit(&mut book.clone(), &ticket, &mut [0; 4_096]);
            made[answer.number as usize] += 1;
        }
        assert!([0, 4, 16, 17].iter().all(|&number| made[number] > 3), "{made:?}");
    }
}
