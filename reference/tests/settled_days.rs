//! The settled days P1 to P11, and the two refusals by 7.

mod common;

use common::{book_of_ledger, entry, output, output_of, p5_book, p8_book, record};
use reference::book::{place, Book, Phase};
use reference::calls::{self, Answer, PairOffAnswer, UnitAnswer};
use reference::measures::{charge, same_quotes, value};
use reference::tape::{FAIL, HANDOVER};
use reference::units::units;

/// Account and lots of each unit.
fn accounts_and_lots(nets: &[i32]) -> Vec<(u32, u32)> {
    units(nets).iter().map(|unit| (unit.account, unit.lots)).collect()
}

#[test]
fn p1_to_p4_units_of_one_net() {
    assert_eq!(accounts_and_lots(&[99_999]), [(0, 99_999)]);
    assert!(!units(&[99_999])[0].full);
    assert_eq!(accounts_and_lots(&[100_000]), [(0, 100_000)]);
    assert!(units(&[100_000])[0].full);
    assert_eq!(accounts_and_lots(&[100_001]), [(0, 100_000), (0, 1)]);
    assert_eq!(accounts_and_lots(&[0]), []);
}

#[test]
fn p5_order_of_units() {
    let order = [
        (2, 100_000),
        (2, 100_000),
        (1, 100_000),
        (1, 100_000),
        (3, 100_000),
        (2, 50_000),
        (3, 50_000),
        (1, 30_000),
    ];
    let book = p5_book(7);
    assert_eq!(accounts_and_lots(book.nets_of(7)), order);
    for (k, (account, lots)) in (0..).zip(order) {
        assert_eq!(calls::unit(&book, 7, k), UnitAnswer { number: 0, found: true, account, lots });
    }
    let none = UnitAnswer { number: 0, found: false, account: 0, lots: 0 };
    assert_eq!(calls::unit(&book, 7, 8), none);
    assert_eq!(calls::unit(&book, 7, u32::MAX), none);
    assert_eq!(calls::unit(&book, 6, 0), none);
}

#[test]
fn p6_p7_deliveries() {
    let mut book = p5_book(7);
    calls::close(&mut book);
    let mut out = output();
    assert_eq!(calls::deliver(&mut book, 7, 5, 345_000, &mut out), Answer { number: 0, count: 3 });
    let full = |to| record(HANDOVER, 7, 0, to, 100_000);
    assert_eq!(out, output_of(&[full(2), full(2), full(1)]));
    assert_eq!(book.delivered_total(7) - 300_000, 45_000);
    out = output();
    assert_eq!(calls::deliver(&mut book, 7, 4, 200_000, &mut out), Answer { number: 0, count: 2 });
    assert_eq!(out, output_of(&[full(1), full(3)]));
    assert_eq!(book.delivered_total(7) - 500_000, 45_000);
    assert_eq!(book.delivered[place(7, 4)], 200_000);
    assert_eq!(book.delivered[place(7, 5)], 345_000);
}

#[test]
fn p8_cutoff() {
    let mut book = p5_book(7);
    let mut out = output();
    calls::close(&mut book);
    calls::deliver(&mut book, 7, 5, 345_000, &mut out);
    calls::deliver(&mut book, 7, 4, 200_000, &mut out);
    out = output();
    assert_eq!(calls::cutoff(&mut book, &mut out), Answer { number: 0, count: 5 });
    let fails = [(4, 2, 5_000), (4, 3, 25_000), (5, 3, 25_000), (5, 1, 30_000)];
    let mut records = vec![record(HANDOVER, 7, 0, 2, 45_000)];
    records.extend(fails.map(|(from, to, lots)| record(FAIL, 7, from, to, lots)));
    assert_eq!(out, output_of(&records));
    assert_eq!(
        book.ledger(),
        fails.map(|(from, to, lots)| entry(7, from as u8, to as u8, lots, 0))
    );
    assert_eq!(book.phase, Phase::Cut);
    assert!(book.sound());
}

#[test]
fn p9_roll() {
    let mut book = p8_book(7);
    let ledger = book.ledger();
    assert_eq!(
        calls::roll(&mut book, 1, 300, &same_quotes(100_000, 0)),
        Answer { number: 0, count: 0 }
    );
    let mut rolled = Book::fresh();
    rolled.day = 1;
    rolled.charges[1..6].copy_from_slice(&[123_287, 20_547, 205_478, -123_286, -226_026]);
    rolled.set_ledger(&ledger);
    assert_eq!(book, rolled);
    assert!(book.sound());
}

#[test]
fn p10_pair_off() {
    let mut book =
        book_of_ledger(&[entry(3, 1, 2, 30, 0), entry(3, 2, 3, 20, 0), entry(3, 2, 1, 5, 0)]);
    assert_eq!(calls::pair_off(&mut book, 3, 2), PairOffAnswer { number: 0, steps: 2, lots: 25 });
    assert_eq!(book, book_of_ledger(&[entry(3, 1, 2, 5, 0), entry(3, 1, 3, 20, 0)]));
}

#[test]
fn p11_value_and_charge() {
    assert_eq!(value(1, 99_999, 0), (0, 49_999));
    assert_eq!(charge(1, 99_999, 12, 10_000, 0), (0, 1_643));
}

#[test]
fn lots_0_and_20_000_001_are_refused_by_7() {
    for lots in [0, 20_000_001] {
        assert_eq!(value(lots, 1, 0), (7, 0));
        assert_eq!(charge(lots, 1, 1, 1, 0), (7, 0));
        let mut book = Book::fresh();
        assert_eq!(calls::trade(&mut book, 0, 1, 2, lots), Answer { number: 7, count: 0 });
        assert_eq!(book, Book::fresh());
    }
}
