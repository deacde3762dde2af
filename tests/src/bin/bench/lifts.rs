//! The calls of a lift, and what lifts that stand cost the other calls, on a busy book.

use crate::calls::busy_book;
use crate::timing::{columns, times, COLUMNS};
use reference::book::{Book, Phase, ISSUES};
use reference::calls::{ask_on_sound, commit_on_sound, Ticket};
use reference::units::{handed, units_of};
use std::ops::Range;
use tests::engines::by_reference;
use tests::steps::Call;

/// The entries of the book: few, so that a cutoff has room.
const ENTRIES: usize = 200;
/// The issue of the calls.
const ISSUE: u32 = 3;

/// Prints the table.
pub fn run(rounds: usize) {
    println!("\n### Lifts on a busy book, in nanoseconds\n");
    println!("| call | lifts in an issue | issues with lifts | answer | {COLUMNS} |");
    println!("|---|--:|--:|--:|--:|--:|--:|");
    let here = ISSUE as usize..ISSUE as usize + 1;
    for (lifts, issues) in [(0, 0..0), (7, here.clone()), (8, here), (8, 0..ISSUES)] {
        let number = issues.len();
        let book = lifted_book(lifts, issues);
        for call in measured_calls(&book) {
            let answer = by_reference(&mut book.clone(), &call, &mut [0; 4_096]);
            let times = columns(times(&book, &call, rounds));
            println!("| {} | {lifts} | {number} | {} | {times} |", call.name(), answer.number);
        }
    }
}

/// The questions and calls that are measured.
fn measured_calls(book: &Book) -> Vec<Call> {
    let (issue, out) = (ISSUE, 4_096);
    let ticket = ticket(book, ISSUE, 1);
    vec![
        Call::Sound,
        Call::Unit { issue, k: 0 },
        Call::Deliver { issue, account: 0, lots: 100_000, out },
        Call::Ask { issue, unit: ticket.unit },
        Call::Commit { ticket, out },
        Call::Cutoff { out },
    ]
}

/// A busy book in Settling with so many lifts in each of some issues, of units that lie far apart.
fn lifted_book(lifts: usize, issues: Range<usize>) -> Book {
    let mut book = busy_book(Phase::Settling, ENTRIES);
    for issue in issues.start as u32..issues.end as u32 {
        for at in 0..lifts {
            let ticket = ticket(&book, issue, at);
            let answer = commit_on_sound(&mut book, &ticket, &mut [0; 4_096]);
            assert_eq!(answer.number, 0, "a unit of the busy book can be lifted");
        }
    }
    assert!(book.sound(), "the book with lifts is sound");
    book
}

/// A good ticket of an issue; each number gives a unit at another place among the unhanded ones.
fn ticket(book: &Book, issue: u32, at: usize) -> Ticket {
    let units = units_of(book, issue as usize);
    let (count, _) = handed(&units, book.delivered_total(issue as usize));
    let unit = count + (units.len() - count) * (2 * at + 1) / 17;
    ask_on_sound(book, issue, unit as u32).ticket
}
