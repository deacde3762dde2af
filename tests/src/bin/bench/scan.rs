//! The scan of a host's book for soundness, which every call on a book pays: instructions of the machine,
//! counted inside `day_sound`.

use crate::programs::collected;
use reference::book::{place, Book, Phase, ACCOUNTS, ENTRIES, ISSUES};
use settlement_day::calls::sound;
use std::process::Command;
use tests::convert::library_book;

/// A book that is scanned: its name, its phase, how many entries it has, in how many issues lots are
/// delivered, and how many issues are marked.
type Scanned = (&'static str, Phase, usize, usize, usize);

/// The books.
const BOOKS: [Scanned; 6] = [
    ("Taking, empty ledger", Phase::Taking, 0, 0, 0),
    ("Taking, full ledger", Phase::Taking, ENTRIES, 0, 0),
    ("Settling, full ledger", Phase::Settling, ENTRIES, 0, 0),
    ("Settling, full ledger, lots delivered in every issue", Phase::Settling, ENTRIES, ISSUES, 0),
    ("Settling, full ledger, one issue marked", Phase::Settling, ENTRIES, 0, 1),
    ("Settling, full ledger, every issue marked", Phase::Settling, ENTRIES, 0, ISSUES),
];

/// Prints the table: each book is scanned once by this program under valgrind.
pub fn counts() -> Result<(), String> {
    let own = std::env::current_exe().map_err(|error| error.to_string())?;
    println!("\n### The scan of a book: instructions of the machine\n");
    println!("| book | scan |\n|---|--:|");
    for (at, (name, ..)) in BOOKS.iter().enumerate() {
        let mut command = Command::new("valgrind");
        command.arg("--toggle-collect=day_sound");
        let words = ["--part", "one-scan", "--one", &at.to_string()];
        println!("| {name} | {} |", collected(command, &own, &words, &[])?);
    }
    Ok(())
}

/// Scans one book, by its number.
pub fn one(number: &str) -> Result<(), String> {
    let scanned = number.parse().ok().and_then(|at: usize| BOOKS.get(at));
    let scanned = scanned.ok_or_else(|| format!("{number:?} is not the number of a book"))?;
    assert!(sound(&library_book(&book_of(scanned))), "the book is sound");
    Ok(())
}

/// A sound book with nets in every issue.
fn book_of(&(name, phase, entries, delivered, marked): &Scanned) -> Book {
    let mut book = Book { phase, count: entries, ..Book::fresh() };
    for at in 0..entries {
        book.issues[at] = (at % ISSUES) as u8;
        book.froms[at] = (at % (ACCOUNTS - 1)) as u8;
        book.tos[at] = (ACCOUNTS - 1) as u8;
        book.lots[at] = 2;
    }
    for issue in 0..ISSUES {
        (book.nets[place(issue, 0)], book.nets[place(issue, 1)]) = (-200, 200);
        book.delivered[place(issue, 0)] = if issue < delivered { 100 } else { 0 };
        book.marks[issue] = u8::from(issue < marked);
    }
    assert!(book.sound(), "the book of {name} is sound");
    book
}
