//! What the tests share: settled books and outputs.
#![allow(dead_code)]

use reference::book::{place, Book, Entry, Phase};
use reference::calls::{self, Ticket};
use reference::tape::Record;

/// What stands in an output before a call.
pub const BEFORE: u32 = 0xdead_beef;

/// An output of the least length that the calls accept.
pub fn output() -> Vec<u32> {
    vec![BEFORE; 4_096]
}

/// The words of records, then the words as they stood before.
pub fn output_of(records: &[Record]) -> Vec<u32> {
    let mut words: Vec<u32> = records.iter().flat_map(Record::words).collect();
    words.resize(4_096, BEFORE);
    words
}

/// A record of the issue.
pub fn record(kind: u32, issue: u32, from: u32, to: u32, lots: u32) -> Record {
    Record { kind, issue, from, to, lots }
}

/// A fail entry.
pub fn entry(issue: u8, from: u8, to: u8, lots: u32, day: u16) -> Entry {
    Entry { issue, from, to, lots, day }
}

/// A book in Taking with the nets of P5 in an issue, made by trades.
pub fn p5_book(issue: u32) -> Book {
    let mut book = Book::fresh();
    for (from, to, lots) in [(4, 1, 230_000), (5, 2, 250_000), (5, 3, 150_000)] {
        assert_eq!(calls::trade(&mut book, issue, from, to, lots).number, 0);
    }
    book
}

/// A book after P7: settling, five units handed, 45,000 lots in stock.
pub fn p7_book(issue: u32) -> Book {
    let mut book = p5_book(issue);
    let mut output = output();
    assert_eq!(calls::close(&mut book).number, 0);
    assert_eq!(calls::deliver(&mut book, issue, 5, 345_000, &mut output).number, 0);
    assert_eq!(calls::deliver(&mut book, issue, 4, 200_000, &mut output).number, 0);
    book
}

/// A book after P8: cut, with four fails.
pub fn p8_book(issue: u32) -> Book {
    let mut book = p7_book(issue);
    assert_eq!(calls::cutoff(&mut book, &mut output()).number, 0);
    book
}

/// Lifts a unit of issue 0 by the ticket that asking gives; answers the count of records.
pub fn lift(book: &mut Book, unit: u32, output: &mut [u32]) -> u32 {
    let asked = calls::ask(book, 0, unit);
    assert_eq!(asked.number, 0, "unit {unit} can be lifted");
    let answer = calls::commit(book, &asked.ticket, output);
    assert_eq!(answer.number, 0, "the ticket of unit {unit} is good");
    answer.count
}

/// A ticket of these six numbers.
pub fn ticket(numbers: [u32; 6]) -> Ticket {
    let [issue, unit, account, lots, day, count] = numbers;
    Ticket { issue, unit, account, lots, day, count }
}

/// A book in a phase with these nets of issue 0.
pub fn book_of_nets(phase: Phase, nets: &[(usize, i32)]) -> Book {
    let mut book = Book::fresh();
    book.phase = phase;
    for &(account, net) in nets {
        book.nets[place(0, account)] = net;
    }
    assert!(book.sound());
    book
}

/// A fresh book with this ledger.
pub fn book_of_ledger(entries: &[Entry]) -> Book {
    let mut book = Book::fresh();
    book.set_ledger(entries);
    assert!(book.sound());
    book
}
