//! Each call on an empty book, on a busy one and on one with a full ledger.

use crate::timing::{columns, times, COLUMNS};
use reference::book::{Book, Entry, Phase, ENTRIES};
use reference::measures::same_quotes;
use tests::books::{move_lots, two_of, MENU};
use tests::engines::by_reference;
use tests::rng::Rng;
use tests::steps::Call;

/// The entries of a busy book.
const BUSY_ENTRIES: usize = 1_000;

/// Prints the table.
pub fn run(rounds: usize) {
    println!("\n### Calls, in nanoseconds\n");
    println!("| call | book | answer | {COLUMNS} |");
    println!("|---|---|--:|--:|--:|--:|");
    for (name, entries) in [("empty", None), ("busy", Some(BUSY_ENTRIES)), ("full", Some(ENTRIES))]
    {
        for (phase, call) in measured_calls() {
            let mut book = match entries {
                None => Book { phase, ..Book::fresh() },
                Some(entries) => busy_book(phase, entries),
            };
            if matches!(call, Call::Cutoff { .. }) && name == "full" {
                leave_room(&mut book);
            }
            let answer = by_reference(&mut book.clone(), &call, &mut [0; 4_096]);
            let times = columns(times(&book, &call, rounds));
            println!("| {} | {name} | {} | {times} |", call.name(), answer.number);
        }
    }
}

/// The questions and calls that are measured, each with its phase.
fn measured_calls() -> Vec<(Phase, Call)> {
    let (issue, out) = (3, 4_096);
    vec![
        (Phase::Settling, Call::Sound),
        (Phase::Settling, Call::Unit { issue, k: 0 }),
        (Phase::Taking, Call::Trade { issue, from: 5, to: 6, lots: 1 }),
        (Phase::Taking, Call::Close),
        (Phase::Settling, Call::Deliver { issue, account: 0, lots: 100_000, out }),
        (Phase::Settling, Call::Cutoff { out }),
        (Phase::Settling, Call::Resolve { issue, account: 0, lots: 1_000, out }),
        (Phase::Settling, Call::PairOff { issue, account: 0 }),
        (Phase::Cut, Call::Roll { days: 3, rate: 300, quotes: same_quotes(99_999, 501).to_vec() }),
        (Phase::Taking, Call::Mark { issue, mark: 1 }),
        (Phase::Taking, Call::Turn { day: 301 }),
    ]
}

/// A sound book with all 16 issues and 64 accounts, and so many entries.
///
/// In each issue account 0 owes lots and has entries in and out.
pub fn busy_book(phase: Phase, entries: usize) -> Book {
    let mut rng = Rng::new(7);
    let mut book = Book { day: 300, phase, ..Book::fresh() };
    let accounts: Vec<u32> = (0..64).collect();
    for issue in 0..16 {
        for _ in 0..200 {
            let (from, to) = two_of(&mut rng, &accounts);
            move_lots(&mut book, issue, from, to, *rng.pick(&MENU));
        }
        move_lots(&mut book, issue, 0, 1, 5_000_000);
    }
    book.set_ledger(&busy_entries(&mut rng, entries));
    assert!(book.sound(), "the busy book is sound");
    book
}

/// Entries of all issues and accounts; every eighth is from account 0 and every eighth to it.
fn busy_entries(rng: &mut Rng, entries: usize) -> Vec<Entry> {
    let others: Vec<u32> = (1..64).collect();
    let entry = |at: usize| {
        let (mut from, mut to) = two_of(rng, &others);
        match at % 8 {
            0 => from = 0,
            4 => to = 0,
            _ => {}
        }
        let (issue, day) = ((at / 8 % 16) as u8, (at * 300 / entries) as u16);
        Entry { issue, from: from as u8, to: to as u8, lots: *rng.pick(&MENU), day }
    };
    (0..entries).map(entry).collect()
}

/// Leaves out so many entries that a cutoff fills the ledger to 2,048.
fn leave_room(book: &mut Book) {
    let mut after = book.clone();
    after.set_ledger(&[]);
    reference::calls::cutoff_on_sound(&mut after, &mut [0; 4_096]);
    let entries = book.ledger();
    book.set_ledger(&entries[..ENTRIES - after.count]);
}
