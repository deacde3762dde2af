//! The calls on worked days beyond the paper's.

mod common;

use common::{book_of_ledger, book_of_nets, entry, output, output_of, record};
use reference::book::{Book, Phase};
use reference::calls::{self, Answer, PairOffAnswer};
use reference::measures::same_quotes;
use reference::tape::{FAIL, HANDOVER, RESOLVED};

const DONE: Answer = Answer { number: 0, count: 0 };

#[test]
fn equal_nets_and_equal_small_units_go_by_lower_account() {
    let book =
        book_of_nets(Phase::Taking, &[(9, 150_000), (3, 150_000), (5, 50_000), (0, -350_000)]);
    let order: Vec<u32> = (0..5).map(|k| calls::unit(&book, 0, k).account).collect();
    assert_eq!(order, [3, 9, 3, 5, 9]);
    assert!(!calls::unit(&book, 0, 5).found);
}

#[test]
fn a_smaller_later_unit_does_not_pass() {
    let mut book = book_of_nets(Phase::Settling, &[(1, 100_000), (2, 10), (3, -100_010)]);
    let mut out = output();
    assert_eq!(calls::deliver(&mut book, 0, 3, 99_999, &mut out), DONE);
    assert_eq!(out, output());
    assert_eq!(calls::deliver(&mut book, 0, 3, 11, &mut out), Answer { number: 0, count: 2 });
    assert_eq!(
        out,
        output_of(&[record(HANDOVER, 0, 0, 1, 100_000), record(HANDOVER, 0, 0, 2, 10)])
    );
}

#[test]
fn full_units_of_an_account_are_one_stretch_and_its_small_unit_another() {
    let mut book = book_of_nets(Phase::Settling, &[(1, 350_000), (2, -150_000), (63, -200_000)]);
    let mut out = output();
    assert_eq!(calls::deliver(&mut book, 0, 2, 130_000, &mut out).count, 1);
    out = output();
    assert_eq!(calls::cutoff(&mut book, &mut out), Answer { number: 0, count: 4 });
    let records = [
        record(HANDOVER, 0, 0, 1, 30_000),
        record(FAIL, 0, 2, 1, 20_000),
        record(FAIL, 0, 63, 1, 150_000),
        record(FAIL, 0, 63, 1, 50_000),
    ];
    assert_eq!(out, output_of(&records));
    let fails =
        [entry(0, 2, 1, 20_000, 0), entry(0, 63, 1, 150_000, 0), entry(0, 63, 1, 50_000, 0)];
    assert_eq!(book.ledger(), fails);
}

#[test]
fn resolve_meets_entries_in_ledger_order() {
    let before =
        [entry(0, 1, 2, 10, 0), entry(1, 1, 2, 7, 0), entry(0, 3, 1, 4, 0), entry(0, 1, 3, 10, 0)];
    let mut book = book_of_ledger(&before);
    let mut out = output();
    assert_eq!(calls::resolve(&mut book, 0, 1, 15, &mut out), Answer { number: 0, count: 2 });
    assert_eq!(out, output_of(&[record(RESOLVED, 0, 1, 2, 10), record(RESOLVED, 0, 1, 3, 5)]));
    assert_eq!(book, book_of_ledger(&[before[1], before[2], entry(0, 1, 3, 5, 0)]));
    out = output();
    assert_eq!(calls::resolve(&mut book, 0, 1, 5, &mut out), Answer { number: 0, count: 1 });
    assert_eq!(book, book_of_ledger(&[before[1], before[2]]));
}

#[test]
fn pair_off_appends_with_today_and_loses_both_sides_where_p_is_q() {
    let mut book =
        book_of_ledger(&[entry(0, 1, 2, 10, 0), entry(0, 2, 1, 10, 0), entry(0, 5, 2, 3, 0)]);
    assert_eq!(calls::pair_off(&mut book, 0, 2), PairOffAnswer { number: 0, steps: 1, lots: 10 });
    assert_eq!(book, book_of_ledger(&[entry(0, 5, 2, 3, 0)]));
    book.set_ledger(&[entry(0, 1, 2, 10, 0), entry(0, 2, 3, 10, 1)]);
    book.day = 4;
    assert_eq!(calls::pair_off(&mut book, 0, 2), PairOffAnswer { number: 0, steps: 1, lots: 10 });
    assert_eq!(book.ledger(), [entry(0, 1, 3, 10, 4)]);
    assert_eq!(calls::pair_off(&mut book, 0, 2), PairOffAnswer { number: 0, steps: 0, lots: 0 });
}

#[test]
fn roll_rounds_the_charge_of_each_entry() {
    let mut book =
        book_of_ledger(&[entry(0, 1, 2, 1, 0), entry(0, 1, 2, 1, 0), entry(15, 2, 1, 1, 0)]);
    book.phase = Phase::Cut;
    let mut quotes = same_quotes(1, 0);
    quotes[0] = 99_999;
    assert_eq!(calls::roll(&mut book, 12, 10_000, &quotes), DONE);
    assert_eq!((book.charges[1], book.charges[2]), (-3_286, 3_286));
    assert_eq!((book.day, book.phase), (1, Phase::Taking));
    assert_eq!(book.count, 3);
}

#[test]
fn roll_takes_price_and_accrued_of_the_entrys_issue() {
    let mut book = book_of_ledger(&[entry(1, 1, 2, 3, 0), entry(15, 3, 4, 3, 0)]);
    book.phase = Phase::Cut;
    let mut quotes = same_quotes(200_000, 0);
    (quotes[1], quotes[15]) = (101, 102);
    quotes[17] = 1;
    assert_eq!(calls::roll(&mut book, 12, 10_000, &quotes), DONE);
    assert_eq!(book.charges[1..5], [-4, 4, -5, 5]);
}

#[test]
fn a_day_without_trades_passes() {
    let mut book = Book::fresh();
    let mut out = output();
    assert_eq!(calls::close(&mut book), DONE);
    assert_eq!(calls::cutoff(&mut book, &mut out), DONE);
    assert_eq!(calls::roll(&mut book, 1, 0, &same_quotes(1, 0)), DONE);
    assert_eq!(out, output());
    assert_eq!(book, Book { day: 1, ..Book::fresh() });
}

#[test]
fn the_longest_cutoff_fits_its_output() {
    let mut book = Book::fresh();
    for issue in 0..16 {
        for to in 1..64 {
            assert_eq!(calls::trade(&mut book, issue, 0, to, 100_001), DONE);
        }
    }
    calls::close(&mut book);
    let mut out = output();
    for issue in 0..16 {
        assert_eq!(calls::deliver(&mut book, issue, 0, 1, &mut out), DONE);
    }
    assert_eq!(calls::cutoff(&mut book, &mut out), Answer { number: 0, count: 16 * 127 });
    assert_eq!(book.count, 16 * 126);
    assert!(book.sound());
}
