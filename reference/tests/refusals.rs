//! The desk's questions: their order in each call, and that a refusal changes nothing.

mod common;

use common::{
    book_of_ledger, book_of_nets, entry, lift, output, p5_book, p7_book, p8_book, ticket,
};
use reference::book::{Book, Entry, Phase};
use reference::calls::{self, Answer, AskAnswer, PairOffAnswer, Ticket, UnitAnswer};
use reference::measures::same_quotes;

/// A book that is not sound: its nets do not sum to 0.
fn damaged(book: &Book) -> Book {
    let mut book = book.clone();
    book.nets[0] += 1;
    assert!(!book.sound());
    book
}

/// The book with an issue marked, which stays sound.
fn marked(mut book: Book, issue: usize) -> Book {
    book.marks[issue] = 1;
    assert!(book.sound());
    book
}

/// Makes a call, which is refused by this number and changes neither book nor output.
fn refused(book: &Book, words: usize, number: u32, call: impl Fn(&mut Book, &mut [u32]) -> Answer) {
    let mut after = book.clone();
    let mut out = output();
    out.resize(words, common::BEFORE);
    let before = out.clone();
    assert_eq!(call(&mut after, &mut out), Answer { number, count: 0 });
    assert!(after == *book, "a refusal by {number} changed the book");
    assert!(out == before, "a refusal by {number} changed the output");
}

#[test]
fn trade_asks_2_3_4_5_6_7_19_8() {
    let taking = marked(book_of_nets(Phase::Taking, &[(1, 20_000_000), (2, -20_000_000)]), 0);
    let settling = Book { phase: Phase::Settling, ..taking.clone() };
    let trade = |issue, from, to, lots| {
        move |book: &mut Book, _: &mut [u32]| calls::trade(book, issue, from, to, lots)
    };
    refused(&damaged(&settling), 0, 2, trade(16, 64, 64, 0));
    refused(&settling, 0, 3, trade(16, 64, 64, 0));
    refused(&taking, 0, 4, trade(16, 64, 64, 0));
    refused(&taking, 0, 5, trade(15, 64, 64, 0));
    refused(&taking, 0, 5, trade(15, 64, 63, 0));
    refused(&taking, 0, 5, trade(15, 63, 64, 0));
    refused(&taking, 0, 6, trade(15, 63, 63, 0));
    refused(&taking, 0, 7, trade(0, 2, 1, 0));
    refused(&taking, 0, 7, trade(0, 2, 1, u32::MAX));
    refused(&taking, 0, 7, trade(0, 2, 1, 20_000_001));
    refused(&taking, 0, 19, trade(0, 2, 1, 1));
    refused(&taking, 0, 19, trade(0, 4, 5, 19_999_999));
    refused(&taking, 0, 8, trade(0, 2, 3, 2));
    refused(&taking, 0, 8, trade(0, 3, 1, 2));
    let plain = Book { marks: [0; 16], ..taking };
    refused(&plain, 0, 8, trade(0, 2, 3, 1));
    refused(&plain, 0, 8, trade(0, 3, 1, 1));
}

#[test]
fn close_asks_2_3() {
    let settling = Book { phase: Phase::Settling, ..Book::fresh() };
    let close = |book: &mut Book, _: &mut [u32]| calls::close(book);
    refused(&damaged(&settling), 0, 2, close);
    refused(&settling, 0, 3, close);
    refused(&Book { phase: Phase::Cut, ..Book::fresh() }, 0, 3, close);
}

#[test]
fn deliver_asks_1_2_3_4_5_7_19_9() {
    let taking = marked(p5_book(0), 0);
    let settling = Book { phase: Phase::Settling, ..taking.clone() };
    let deliver = |issue, account, lots| {
        move |book: &mut Book, out: &mut [u32]| calls::deliver(book, issue, account, lots, out)
    };
    refused(&damaged(&taking), 4_095, 1, deliver(16, 64, 0));
    refused(&damaged(&taking), 4_096, 2, deliver(16, 64, 0));
    refused(&taking, 4_096, 3, deliver(16, 64, 0));
    refused(&settling, 4_096, 4, deliver(16, 64, 0));
    refused(&settling, 4_096, 5, deliver(15, 64, 0));
    refused(&settling, 4_096, 7, deliver(15, 63, 0));
    refused(&settling, 4_096, 7, deliver(0, 4, 20_000_001));
    refused(&settling, 4_096, 19, deliver(0, 4, 230_001));
    refused(&settling, 4_096, 19, deliver(0, 1, 1));
    refused(&settling, 4_096, 9, deliver(0, 4, 230_002));
    refused(&settling, 4_096, 9, deliver(0, 1, 2));
    refused(&settling, 4_096, 9, deliver(15, 63, 1));
    let plain = Book { marks: [0; 16], ..settling };
    refused(&plain, 4_096, 9, deliver(0, 4, 230_001));
}

#[test]
fn ask_asks_2_3_4_16() {
    let settling = p7_book(0);
    let refusal = |number| AskAnswer { number, ticket: Ticket::default() };
    for phase in [Phase::Taking, Phase::Cut] {
        let mut book = Book { phase, ..settling.clone() };
        if phase == Phase::Taking {
            book = p5_book(0);
        }
        assert_eq!(calls::ask(&damaged(&book), 16, 99), refusal(2));
        assert_eq!(calls::ask(&book, 16, 99), refusal(3));
    }
    assert_eq!(calls::ask(&settling, 16, 99), refusal(4));
    assert_eq!(calls::ask(&settling, u32::MAX, 5), refusal(4));
    for unit in [0, 4, 8, 9, u32::MAX] {
        assert_eq!(calls::ask(&settling, 0, unit), refusal(16), "unit {unit}");
    }
    assert_eq!(calls::ask(&settling, 1, 0), refusal(16));
    assert_eq!(calls::ask(&settling, 0, 5).number, 0);
    assert_eq!(calls::ask_on_sound(&damaged(&settling), 16, 99), refusal(4));
}

#[test]
fn commit_asks_1_2_3_4_16_17_18() {
    let taking = p5_book(0);
    let mut settling = p7_book(0);
    (0..8).for_each(|_| assert_eq!(lift(&mut settling, 5, &mut output()), 0));
    let commit = |numbers: [u32; 6]| {
        move |book: &mut Book, out: &mut [u32]| calls::commit(book, &ticket(numbers), out)
    };
    refused(&damaged(&taking), 4_095, 1, commit([16, 99, 64, 0, 1, 1]));
    refused(&damaged(&taking), 4_096, 2, commit([16, 99, 64, 0, 1, 1]));
    refused(&taking, 4_096, 3, commit([16, 99, 64, 0, 1, 1]));
    refused(&settling, 4_096, 4, commit([16, 99, 64, 0, 1, 1]));
    refused(&settling, 4_096, 16, commit([0, 8, 64, 0, 1, 1]));
    refused(&settling, 4_096, 16, commit([0, 4, 3, 100_000, 0, 10]));
    refused(&settling, 4_096, 16, commit([1, 0, 2, 50_000, 0, 10]));
    refused(&settling, 4_096, 17, commit([0, 5, 64, 50_000, 0, 10]));
    refused(&settling, 4_096, 17, commit([0, 5, 3, 50_000, 0, 10]));
    refused(&settling, 4_096, 17, commit([0, 5, 2, 0, 0, 10]));
    refused(&settling, 4_096, 17, commit([0, 5, 2, u32::MAX, 0, 10]));
    refused(&settling, 4_096, 17, commit([0, 5, 2, 50_000, 1, 10]));
    refused(&settling, 4_096, 17, commit([0, 5, 2, 50_000, 65_536, 10]));
    refused(&settling, 4_096, 17, commit([0, 5, 2, 50_000, 0, 9]));
    refused(&settling, 4_096, 17, commit([0, 5, 2, 50_000, 0, u32::MAX]));
    refused(&settling, 4_096, 18, commit([0, 5, 2, 50_000, 0, 10]));
}

#[test]
fn cutoff_asks_1_2_3_10() {
    let taking = book_of_nets(Phase::Taking, &[(1, 100_001), (2, -100_001)]);
    let full = |entries: usize| {
        let mut book = Book { phase: Phase::Settling, ..taking.clone() };
        book.set_ledger(&vec![entry(0, 1, 2, 1, 0); entries]);
        book
    };
    let cutoff = |book: &mut Book, out: &mut [u32]| calls::cutoff(book, out);
    refused(&damaged(&taking), 4_095, 1, cutoff);
    refused(&damaged(&taking), 4_096, 2, cutoff);
    refused(&taking, 4_096, 3, cutoff);
    refused(&full(2_047), 4_096, 10, cutoff);
    let mut book = full(2_046);
    assert_eq!(calls::cutoff(&mut book, &mut output()), Answer { number: 0, count: 2 });
    assert_eq!(book.count, 2_048);
}

#[test]
fn resolve_asks_1_2_4_5_7_19_9() {
    let book =
        book_of_ledger(&[entry(0, 1, 2, 10, 0), entry(0, 1, 3, 10, 0), entry(1, 1, 2, 5, 0)]);
    let resolve = |issue, account, lots| {
        move |book: &mut Book, out: &mut [u32]| calls::resolve(book, issue, account, lots, out)
    };
    refused(&damaged(&book), 4_095, 1, resolve(16, 64, 0));
    refused(&damaged(&book), 4_096, 2, resolve(16, 64, 0));
    refused(&book, 4_096, 4, resolve(16, 64, 0));
    refused(&book, 4_096, 5, resolve(15, 64, 0));
    refused(&book, 4_096, 7, resolve(15, 63, 0));
    refused(&book, 4_096, 9, resolve(0, 1, 21));
    refused(&book, 4_096, 9, resolve(0, 2, 1));
    let book = marked(book, 0);
    refused(&book, 4_096, 7, resolve(0, 1, 20_000_001));
    refused(&book, 4_096, 19, resolve(0, 1, 21));
    refused(&book, 4_096, 19, resolve(0, 2, 1));
    refused(&book, 4_096, 9, resolve(0, 1, 22));
    refused(&book, 4_096, 9, resolve(1, 1, 7));
}

#[test]
fn pair_off_asks_2_4_5() {
    let mut book = book_of_ledger(&[entry(0, 1, 2, 10, 0), entry(0, 2, 3, 10, 0)]);
    let before = book.clone();
    let refusal = |number| PairOffAnswer { number, steps: 0, lots: 0 };
    assert_eq!(calls::pair_off(&mut damaged(&book), 16, 64), refusal(2));
    assert_eq!(calls::pair_off(&mut book, 16, 64), refusal(4));
    assert_eq!(calls::pair_off(&mut book, 15, 64), refusal(5));
    assert_eq!(book, before);
}

#[test]
fn roll_asks_2_3_11_12() {
    let cut = Book { day: u16::MAX, ..p8_book(0) };
    let taking = Book { day: u16::MAX, ..Book::fresh() };
    let roll = |days, rate, quotes: Vec<u32>| {
        move |book: &mut Book, _: &mut [u32]| calls::roll(book, days, rate, &quotes)
    };
    let with = |at: usize, number| {
        let mut quotes = same_quotes(1, 0).to_vec();
        quotes[at] = number;
        quotes
    };
    refused(&damaged(&taking), 0, 2, roll(0, 0, vec![]));
    refused(&taking, 0, 3, roll(0, 0, vec![]));
    refused(&cut, 0, 11, roll(0, 0, with(0, 1)));
    refused(&cut, 0, 11, roll(13, 0, with(0, 1)));
    refused(&cut, 0, 11, roll(1, 10_001, with(0, 1)));
    refused(&cut, 0, 11, roll(1, 0, vec![1; 31]));
    refused(&cut, 0, 11, roll(1, 0, vec![1; 33]));
    refused(&cut, 0, 11, roll(1, 0, with(0, 0)));
    refused(&cut, 0, 11, roll(1, 0, vec![1; 16]));
    refused(&cut, 0, 11, roll(1, 0, with(15, 200_001)));
    refused(&cut, 0, 11, roll(1, 0, with(16, 10_001)));
    refused(&cut, 0, 11, roll(1, 0, with(31, u32::MAX)));
    let mut high = with(15, 190_001);
    high[31] = 10_000;
    refused(&cut, 0, 11, roll(1, 0, high.clone()));
    high[15] = 190_000;
    refused(&cut, 0, 12, roll(1, 0, high));
    refused(&cut, 0, 12, roll(1, 0, with(31, 10_000)));
    refused(&cut, 0, 12, roll(12, 10_000, with(15, 200_000)));
}

#[test]
fn mark_asks_2_4_20() {
    let with_net = book_of_nets(Phase::Settling, &[(62, 1), (63, -1)]);
    let with_entries = book_of_ledger(&[entry(7, 1, 2, 1, 0), entry(15, 3, 4, 1, 0)]);
    for number in [0, 1, 2, u32::MAX] {
        let mark = |issue| move |book: &mut Book, _: &mut [u32]| calls::mark(book, issue, number);
        refused(&damaged(&with_net), 0, 2, mark(16));
        refused(&with_net, 0, 4, mark(16));
        refused(&with_net, 0, 4, mark(u32::MAX));
        refused(&with_net, 0, 20, mark(0));
        refused(&with_entries, 0, 20, mark(7));
        refused(&with_entries, 0, 20, mark(15));
        refused(&Book { marks: [1; 16], ..p7_book(0) }, 0, 20, mark(0));
        assert_eq!(calls::mark(&mut with_entries.clone(), 8, number).number, 0);
        assert_eq!(calls::mark_on_sound(&mut damaged(&with_entries), 8, number).number, 0);
    }
}

#[test]
fn turn_asks_2_26() {
    let today = Book { day: 7, turn: 9, ..book_of_nets(Phase::Settling, &[(62, 1), (63, -1)]) };
    let in_force = Book { turn: 7, ..today.clone() };
    let turn = |day| move |book: &mut Book, _: &mut [u32]| calls::turn(book, day);
    for day in [0, 7, 8, 9, u32::MAX] {
        refused(&damaged(&today), 0, 2, turn(day));
        refused(&damaged(&in_force), 0, 2, turn(day));
        refused(&in_force, 0, 26, turn(day));
    }
    refused(&today, 0, 26, turn(0));
    refused(&today, 0, 26, turn(7));
    assert_eq!(calls::turn(&mut today.clone(), 8).number, 0);
    assert_eq!(calls::turn_on_sound(&mut damaged(&today), 8).number, 0);
    assert_eq!(calls::turn_on_sound(&mut damaged(&in_force), 8).number, 26);
}

#[test]
fn the_unit_question_asks_2_4() {
    let book = p5_book(0);
    let refusal = |number| UnitAnswer { number, found: false, account: 0, lots: 0 };
    assert_eq!(calls::unit(&damaged(&book), 16, 0), refusal(2));
    assert_eq!(calls::unit(&book, 16, 0), refusal(4));
    assert_eq!(calls::unit_on_sound(&damaged(&book), 16, 0), refusal(4));
}

#[test]
fn a_book_known_to_be_sound_is_not_asked() {
    let day = |trade: fn(&mut Book, u32, u32, u32, u32) -> Answer| {
        let mut book = Book { charges: [1; 64], ..Book::fresh() };
        trade(&mut book, 0, 1, 2, 3).number
    };
    assert_eq!(day(calls::trade), 2);
    assert_eq!(day(calls::trade_on_sound), 0);
    let entries: [Entry; 1] = [entry(0, 1, 1, 1, 0)];
    let mut book = Book::fresh();
    book.set_ledger(&entries);
    assert_eq!(calls::resolve(&mut book, 0, 1, 1, &mut output()).number, 2);
    assert_eq!(calls::resolve_on_sound(&mut book, 0, 1, 1, &mut output()).number, 0);
}
