//! How a call's time grows with units, with accounts and with entries.

use crate::calls::busy_book;
use crate::timing::{columns, times, COLUMNS};
use reference::book::{place, Book, Entry, Phase};
use reference::measures::same_quotes;
use tests::steps::Call;

/// Prints the tables.
pub fn run(rounds: usize) {
    by_units(rounds);
    by_accounts(rounds);
    by_entries(rounds);
}

/// Opens a table about what grows.
fn table(title: &str, grows: &str) {
    println!("\n### {title}, in nanoseconds\n");
    println!("| call | {grows} | {COLUMNS} |");
    println!("|---|--:|--:|--:|--:|");
}

/// Prints a line of a table.
fn line(call: &Call, size: usize, book: &Book, rounds: usize) {
    println!("| {} | {size} | {} |", call.name(), columns(times(book, call, rounds)));
}

/// One receiver with more and more units: all handed over by one delivery, and the last asked.
fn by_units(rounds: usize) {
    table("Growth with the units of an issue", "units");
    for units in [1, 10, 50, 100, 200] {
        let lots = 100_000 * units;
        let mut book = Book { phase: Phase::Settling, ..Book::fresh() };
        book.nets[place(0, 1)] = lots as i32;
        book.nets[place(0, 2)] = -(lots as i32);
        let unit = Call::Unit { issue: 0, k: units - 1 };
        line(&unit, units as usize, &book, rounds);
        let deliver = Call::Deliver { issue: 0, account: 2, lots, out: 4_096 };
        line(&deliver, units as usize, &book, rounds);
    }
}

/// More and more receivers of two units each, of unlike sizes.
fn by_accounts(rounds: usize) {
    table("Growth with the receivers of an issue", "receivers");
    for receivers in [1, 8, 16, 32, 63] {
        let mut book = Book { phase: Phase::Settling, ..Book::fresh() };
        for account in 1..=receivers {
            let lots = 100_000 + 37 * (account as i32 * 29 % 64);
            book.nets[place(0, account)] = lots;
            book.nets[place(0, 0)] -= lots;
        }
        line(&Call::Unit { issue: 0, k: 0 }, receivers, &book, rounds);
        line(
            &Call::Deliver { issue: 0, account: 0, lots: 100_000, out: 4_096 },
            receivers,
            &book,
            rounds,
        );
        line(&Call::Cutoff { out: 4_096 }, receivers, &book, rounds);
    }
}

/// More and more entries, of which every eighth is from account 0 and every eighth to it.
fn by_entries(rounds: usize) {
    table("Growth with the entries of the ledger", "entries");
    for entries in [8, 128, 512, 1_024, 2_048] {
        let book = busy_book(Phase::Cut, entries);
        let resolve = Call::Resolve { issue: 0, account: 0, lots: 1, out: 4_096 };
        line(&resolve, entries, &book, rounds);
        line(&Call::PairOff { issue: 0, account: 0 }, entries, &book, rounds);
        line(
            &Call::Roll { days: 1, rate: 300, quotes: same_quotes(99_999, 501).to_vec() },
            entries,
            &book,
            rounds,
        );
    }
    table("Pair-off where every entry is met", "entries");
    for entries in [8, 128, 512, 1_024, 2_048] {
        let mut book = Book { phase: Phase::Cut, ..Book::fresh() };
        book.set_ledger(&met_entries(entries));
        line(&Call::PairOff { issue: 0, account: 5 }, entries, &book, rounds);
    }
}

/// Entries to account 5 and then as many from it, of lots that overlap.
fn met_entries(entries: usize) -> Vec<Entry> {
    (0..entries)
        .map(|at| {
            let inward = at < entries / 2;
            let (from, to) = if inward { (1, 5) } else { (5, 2) };
            Entry { issue: 0, from, to, lots: if inward { 3 } else { 2 }, day: 0 }
        })
        .collect()
}
