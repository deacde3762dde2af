//! The reason a unit has not come: worked days, lifts, and every refusal.

mod common;

use common::{book_of_nets, lift, output, p5_book, p7_book, p8_book};
use reference::book::{Book, Phase};
use reference::calls::{self, Status, StatusAnswer};
use Status::{Handed, PartlyFailed, Waiting, WhollyFailed};

/// What is told of all units of an issue, in order.
fn all(book: &Book, issue: u32) -> Vec<Status> {
    (0..).map_while(|k| calls::status(book, issue, k).status).collect()
}

/// The number by which a status is refused.
fn number(book: &Book, issue: u32, k: u32) -> u32 {
    let StatusAnswer { number, status } = calls::status(book, issue, k);
    assert_eq!(status.is_none(), number != 0);
    number
}

#[test]
fn p6_to_p8() {
    let mut book = p5_book(3);
    assert_eq!(calls::close(&mut book).number, 0);
    let nothing = [100_000, 200_000, 300_000, 400_000, 500_000, 550_000, 600_000, 630_000];
    assert_eq!(all(&book, 3), nothing.map(Waiting));
    assert_eq!(calls::deliver(&mut book, 3, 5, 345_000, &mut output()).number, 0);
    let waiting = [55_000, 155_000, 205_000, 255_000, 285_000].map(Waiting);
    assert_eq!(all(&book, 3), [&[Handed; 3], &waiting[..]].concat());
    let waiting = [5_000, 55_000, 85_000].map(Waiting);
    assert_eq!(all(&p7_book(3), 3), [&[Handed; 5], &waiting[..]].concat());
    let cut = [PartlyFailed(5_000), WhollyFailed, WhollyFailed];
    assert_eq!(all(&p8_book(3), 3), [&[Handed; 5], &cut[..]].concat());
}

#[test]
fn later_resolves_and_pair_offs_are_not_counted() {
    let mut book = p8_book(3);
    let before = all(&book, 3);
    for (account, lots) in [(4, 30_000), (5, 55_000)] {
        assert_eq!(calls::resolve(&mut book, 3, account, lots, &mut output()).number, 0);
        assert_eq!(calls::pair_off(&mut book, 3, account).number, 0);
    }
    assert_eq!((all(&book, 3), book.count), (before, 0));
}

#[test]
fn a_lift_moves_the_units_that_it_passes() {
    let mut book = p7_book(0);
    lift(&mut book, 7, &mut output());
    let waiting = [35_000, 85_000].map(Waiting);
    assert_eq!(all(&book, 0), [&[Handed; 6], &waiting[..]].concat());
    assert_eq!(calls::cutoff(&mut book, &mut output()).number, 0);
    let cut = [PartlyFailed(35_000), WhollyFailed];
    assert_eq!(all(&book, 0), [&[Handed; 6], &cut[..]].concat());
}

#[test]
fn the_next_unit_without_stock_is_wholly_failed() {
    let mut book = book_of_nets(Phase::Settling, &[(1, 150_000), (2, -150_000)]);
    assert_eq!(calls::deliver(&mut book, 0, 2, 100_000, &mut output()).number, 0);
    assert_eq!(all(&book, 0), [Handed, Waiting(50_000)]);
    assert_eq!(calls::cutoff(&mut book, &mut output()).number, 0);
    assert_eq!(all(&book, 0), [Handed, WhollyFailed]);
}

#[test]
fn refusals_come_in_their_order() {
    let taking = p5_book(0);
    let settling = p7_book(0);
    let mut unsound = taking.clone();
    unsound.charges[0] = 1;
    assert_eq!(number(&unsound, 16, 9), 2);
    assert_eq!(number(&taking, 16, 9), 3);
    assert_eq!(number(&taking, 0, 0), 3);
    assert_eq!(number(&settling, 16, 9), 4);
    assert_eq!(number(&settling, u32::MAX, 0), 4);
    for k in [8, 256, u32::MAX] {
        assert_eq!([&settling, &p8_book(0)].map(|book| number(book, 0, k)), [16, 16]);
    }
    assert_eq!(number(&settling, 1, 0), 16);
    assert_eq!(number(&settling, 0, 0), 0);
}
