//! Random sound books, and random lots with many equals.

use crate::rng::Rng;
use reference::book::{place, Book, Entry, Lift, Phase, ACCOUNTS, ENTRIES};
use reference::measures::MOST_LOTS;
use reference::soundness::MOST_CHARGE_A_DAY;
use reference::units::{handed, units_of};

/// Lots at the edges of units, of which sums and ties are made.
pub const MENU: [u32; 16] = [
    1, 2, 3, 30_000, 49_999, 50_000, 50_001, 99_999, 100_000, 100_001, 130_000, 150_000, 199_999,
    200_000, 230_000, 250_000,
];

/// Which part of a book is filled.
#[derive(Clone, Debug)]
pub struct Shape {
    pub issues: Vec<u32>,
    pub accounts: Vec<u32>,
    /// The issues that are marked, some of those that are filled.
    pub marked: Vec<u32>,
    pub entries: usize,
    pub day: u16,
    /// The lots that are chosen mostly; with few of them many nets are equal.
    pub menu: Vec<u32>,
}

impl Shape {
    /// Few issues and accounts, so that ties, chains and rings of fails occur.
    pub fn few(rng: &mut Rng) -> Shape {
        let issues = some_of(rng, 16, 1, 3);
        let marked = issues.iter().copied().filter(|_| rng.chance(1, 3)).collect();
        let accounts = some_of(rng, 64, 2, 6);
        let entries = *rng.pick(&[0, 0, 3, 10, 40, 2_040, 2_046, 2_047, 2_048]);
        let day = *rng.pick(&[0, 1, 2, 300, 40_000, 65_500, 65_530, 65_534]);
        let day = if rng.chance(1, 40) { u16::MAX } else { day };
        let few = [*rng.pick(&MENU), *rng.pick(&MENU)];
        let menu = if rng.chance(1, 2) { few.to_vec() } else { MENU.to_vec() };
        Shape { issues, accounts, marked, entries, day, menu }
    }
}

/// So many different numbers below a limit; 0 and the last are often among them.
fn some_of(rng: &mut Rng, limit: u32, least: u32, most: u32) -> Vec<u32> {
    let count = rng.range(least, most) as usize;
    let mut numbers = Vec::new();
    while numbers.len() < count {
        let number =
            if rng.chance(1, 3) { *rng.pick(&[0, 1, limit - 1]) } else { rng.range(0, limit - 1) };
        if !numbers.contains(&number) {
            numbers.push(number);
        }
    }
    numbers
}

/// Lots of the menu, small, of some units, or large.
pub fn random_lots(rng: &mut Rng, menu: &[u32]) -> u32 {
    match rng.range(0, if menu.len() > 2 { 39 } else { 35 }) {
        0..=32 => *rng.pick(menu),
        33..=35 => rng.range(1, 9),
        36..=38 => rng.range(1, 400_000),
        _ => rng.range(1, MOST_LOTS),
    }
}

/// Two different accounts of a list of at least two.
pub fn two_of(rng: &mut Rng, accounts: &[u32]) -> (u32, u32) {
    let from = *rng.pick(accounts);
    loop {
        let to = *rng.pick(accounts);
        if to != from {
            return (from, to);
        }
    }
}

/// A random sound book of a shape, in any phase.
pub fn random_book(rng: &mut Rng, shape: &Shape) -> Book {
    let phase = *rng.pick(&[Phase::Taking, Phase::Settling, Phase::Cut]);
    let turn = random_turn(rng, shape.day);
    let mut book = Book { day: shape.day, phase, turn, ..Book::fresh() };
    for &issue in &shape.marked {
        book.marks[issue as usize] = *rng.pick(&[1, 1, 1, 2, 128, 255]);
    }
    for &issue in &shape.issues {
        for _ in 0..rng.range(0, 2 * shape.accounts.len() as u32) {
            let (from, to) = two_of(rng, &shape.accounts);
            let lots = suited(&book, issue, random_lots(rng, &shape.menu));
            move_lots(&mut book, issue, from, to, lots);
        }
    }
    if phase != Phase::Taking {
        deliver_some(rng, &mut book);
        shape.issues.iter().for_each(|&issue| lift_some(rng, &mut book, issue as usize));
    }
    charge_some(rng, &mut book, &shape.accounts);
    let entries = random_entries(rng, shape, &book);
    book.set_ledger(&entries);
    assert!(book.sound(), "a random book is not sound");
    book
}

/// A change-over day: none, one that has come, one that comes soon, or any number.
pub fn random_turn(rng: &mut Rng, today: u16) -> u32 {
    let today = u32::from(today);
    match rng.range(0, 9) {
        0..=2 => 0,
        3..=4 => today,
        5 => rng.range(0, today),
        6..=7 => today + 1,
        8 => today + 2,
        _ => rng.next_u32() >> rng.range(0, 31),
    }
}

/// Lots that the issue takes: in a marked one the next even number.
pub fn suited(book: &Book, issue: u32, lots: u32) -> u32 {
    if book.is_marked(issue as usize) {
        lots.next_multiple_of(2)
    } else {
        lots
    }
}

/// Moves lots between two nets, if both stay within ±20,000,000.
pub fn move_lots(book: &mut Book, issue: u32, from: u32, to: u32, lots: u32) {
    let from = place(issue as usize, from as usize);
    let to = place(issue as usize, to as usize);
    let (low, high) = (book.nets[from] - lots as i32, book.nets[to] + lots as i32);
    if low >= -(MOST_LOTS as i32) && high <= MOST_LOTS as i32 {
        book.nets[from] = low;
        book.nets[to] = high;
    }
}

/// Each deliverer has delivered nothing, some or all.
pub fn deliver_some(rng: &mut Rng, book: &mut Book) {
    for at in 0..book.nets.len() {
        let owed = (-book.nets[at]).max(0) as u32;
        let lots = match rng.range(0, 3) {
            0 => 0,
            1 => owed,
            _ => rng.range(0, owed),
        };
        book.delivered[at] = suited(book, (at / ACCOUNTS) as u32, lots);
    }
}

/// No lifts or up to eight in an issue, a count within its limit, and any numbers in unused places.
pub fn lift_some(rng: &mut Rng, book: &mut Book, issue: usize) {
    if rng.chance(1, 4) {
        book.lifts[issue].moves.fill_with(|| Lift { old: rng.next_u32(), new: rng.range(0, 3) });
    }
    let number = if rng.chance(1, 3) { 0 } else { *rng.pick(&[1, 2, 3, 5, 7, 8]) };
    let mut least = 0;
    for at in 0..number {
        let units = units_of(book, issue);
        let (count, _) = handed(&units, book.delivered_total(issue));
        let most = count.min(units.len().saturating_sub(1)) as u32;
        if units.is_empty() || most < least {
            break;
        }
        let new = between(rng, least, most);
        let old = between(rng, new, units.len() as u32 - 1);
        book.lifts[issue].moves[at] = Lift { old, new };
        book.lifts[issue].number += 1;
        if !reference::soundness::lifts_new_at_most_handed(book) {
            book.lifts[issue].number -= 1;
            break;
        }
        least = new;
    }
    let most = book.delivered_total(issue) + u64::from(book.lifts[issue].number);
    book.lifts[issue].count = rng.range(0, most as u32) >> *rng.pick(&[0, 8, 31]);
    if rng.chance(1, 5) {
        book.lifts[issue].count = most as u32;
    }
}

/// A number from low to high, often one of the two.
fn between(rng: &mut Rng, low: u32, high: u32) -> u32 {
    let any = rng.range(low, high);
    *rng.pick(&[low, high, any, any])
}

/// Charges that sum to 0, at most the limit of the day.
fn charge_some(rng: &mut Rng, book: &mut Book, accounts: &[u32]) {
    let most = MOST_CHARGE_A_DAY as i64 * i64::from(book.day);
    for _ in 0..rng.range(0, 3) {
        let (from, to) = two_of(rng, accounts);
        let (from, to) = (from as usize, to as usize);
        let room = (most - book.charges[to].abs()).min(most - book.charges[from].abs());
        let yen = if rng.chance(1, 4) { room } else { room.min(rng.next_u32().into()) };
        book.charges[from] -= yen;
        book.charges[to] += yen;
    }
}

/// Entries among few accounts, days never falling nor above today, even lots in marked issues.
fn random_entries(rng: &mut Rng, shape: &Shape, book: &Book) -> Vec<Entry> {
    let mut day = rng.range(0, shape.day.into()) as u16;
    (0..shape.entries.min(ENTRIES))
        .map(|_| {
            if day < shape.day && rng.chance(1, 4) {
                day += 1;
            }
            let (from, to) = two_of(rng, &shape.accounts);
            let issue = *rng.pick(&shape.issues);
            let lots = suited(book, issue, random_lots(rng, &shape.menu));
            Entry { issue: issue as u8, from: from as u8, to: to as u8, lots, day }
        })
        .collect()
}

#[cfg(test)]
mod tests {
    use super::*;

    #[test]
    fn random_books_are_sound_and_differ() {
        let books: Vec<Book> = (0..200)
            .map(|case| {
                let mut rng = Rng::of_case(1, case);
                let shape = Shape::few(&mut rng);
                random_book(&mut rng, &shape)
            })
            .collect();
        assert!(books.iter().any(|book| book.count == ENTRIES));
        assert!(books.iter().any(|book| book.day == u16::MAX - 1));
        assert!(books.windows(2).any(|pair| pair[0] != pair[1]));
        let odd = |b: &Book, i| b.entries().any(|e| usize::from(e.issue) == i && e.lots % 2 == 1);
        let has = |b: &Book, i: usize| b.nets_of(i).iter().any(|&net| net != 0);
        let some = |marked, found: &dyn Fn(&Book, usize) -> bool| {
            let of = |b: &Book| (0..16).any(|i| b.is_marked(i) == marked && found(b, i));
            books.iter().filter(|b| of(b)).count() > 20
        };
        assert!(some(true, &has) && some(false, &has) && some(false, &odd) && !some(true, &odd));
        let dealt = books.iter().filter(|book| book.deals_in_turn()).count();
        assert!((40..160).contains(&dealt), "{dealt}");
        let lifts = |number| books.iter().any(|b| b.lifts.iter().any(|l| l.number == number));
        assert!((0..=8).filter(|&number| lifts(number)).count() > 5);
    }
}
