//! Lifts: worked days with ask and commit, and what follows the lifted order.

mod common;

use common::{book_of_nets, entry, lift, output, output_of, p7_book, record, ticket};
use reference::book::{Book, Lift, Lifts, Phase};
use reference::calls::{self, Answer, AskAnswer, Ticket};
use reference::measures::same_quotes;
use reference::tape::{FAIL, HANDOVER};
use reference::units::units_of;

/// Account and lots of an issue's units, in order.
fn order(book: &Book, issue: usize) -> Vec<(u32, u32)> {
    units_of(book, issue).iter().map(|unit| (unit.account, unit.lots)).collect()
}

/// The lifts that stand for issue 0, as old and new place.
fn places(book: &Book) -> Vec<(u32, u32)> {
    book.lifts[0].standing().iter().map(|lift| (lift.old, lift.new)).collect()
}

#[test]
fn p5_to_p7_with_unit_7_lifted() {
    let mut book = p7_book(0);
    let ticket = ticket([0, 7, 1, 30_000, 0, 2]);
    let before = book.clone();
    assert_eq!(calls::ask(&book, 0, 7), AskAnswer { number: 0, ticket });
    assert_eq!(book, before);
    let mut out = output();
    assert_eq!(calls::commit(&mut book, &ticket, &mut out), Answer { number: 0, count: 1 });
    assert_eq!(out, output_of(&[record(HANDOVER, 0, 0, 1, 30_000)]));
    let mut moves = [Lift::default(); 8];
    moves[0] = Lift { old: 7, new: 5 };
    let mut after = before;
    after.lifts[0] = Lifts { number: 1, count: 3, moves };
    assert_eq!(book, after);
    assert!(book.sound());
    let full = [(2, 100_000), (2, 100_000), (1, 100_000), (1, 100_000), (3, 100_000)];
    let small = [(1, 30_000), (2, 50_000), (3, 50_000)];
    assert_eq!(order(&book, 0), [&full[..], &small].concat());
    for (k, (account, lots)) in (5..).zip(small) {
        let unit = calls::unit(&book, 0, k);
        assert_eq!((unit.found, unit.account, unit.lots), (true, account, lots));
    }
}

#[test]
fn the_same_ticket_is_good_once() {
    let mut book = p7_book(0);
    let mut out = output();
    let used = ticket([0, 7, 1, 30_000, 0, 2]);
    calls::commit(&mut book, &used, &mut out);
    assert_eq!(calls::commit(&mut book, &used, &mut out).number, 17);
    assert_eq!(calls::ask(&book, 0, 7).ticket, ticket([0, 7, 3, 50_000, 0, 3]));
    assert_eq!(calls::ask(&book, 0, 5), AskAnswer { number: 16, ticket: Ticket::default() });
    assert_eq!(calls::ask(&book, 0, 8).number, 16);
    let own = calls::ask(&book, 0, 6).ticket;
    assert_eq!(calls::commit(&mut book, &own, &mut out), Answer { number: 0, count: 0 });
    assert_eq!(calls::deliver(&mut book, 0, 4, 30_000, &mut out).number, 0);
    assert_eq!(calls::deliver(&mut book, 0, 5, 5_000, &mut out).count, 1);
    assert_eq!(calls::commit(&mut book, &own, &mut out).number, 16);
}

#[test]
fn a_cutoff_follows_the_lifted_order() {
    let mut book = p7_book(0);
    lift(&mut book, 7, &mut output());
    let mut out = output();
    assert_eq!(calls::cutoff(&mut book, &mut out), Answer { number: 0, count: 4 });
    let fails = [(4, 2, 30_000), (5, 2, 5_000), (5, 3, 50_000)];
    let mut records = vec![record(HANDOVER, 0, 0, 2, 15_000)];
    records.extend(fails.map(|(from, to, lots)| record(FAIL, 0, from, to, lots)));
    assert_eq!(out, output_of(&records));
    assert_eq!((places(&book), book.lifts[0].count), (vec![(7, 5)], 3));
    assert!(book.sound());
    let unit = calls::unit(&book, 0, 5);
    assert_eq!((unit.account, unit.lots), (1, 30_000));
    assert_eq!(calls::ask(&book, 0, 7).number, 3);
    assert_eq!(calls::roll(&mut book, 1, 300, &same_quotes(100_000, 0)).number, 0);
    assert_eq!(book.lifts, [Lifts::default(); 16]);
    assert_eq!(&book.charges[2..6], &[143_834, 205_479, -123_287, -226_026]);
    assert!(book.sound());
}

#[test]
fn a_lift_to_its_own_place_stands_and_eight_are_the_most() {
    let mut book = p7_book(0);
    let mut out = output();
    for count in 2..10 {
        let ticket = ticket([0, 5, 2, 50_000, 0, count]);
        assert_eq!(calls::commit(&mut book, &ticket, &mut out), Answer { number: 0, count: 0 });
    }
    assert_eq!(out, output());
    assert_eq!(places(&book), [(5, 5); 8]);
    assert_eq!(book.lifts[0].count, 10);
    assert!(book.sound());
    let before = book.clone();
    let ninth = ticket([0, 5, 2, 50_000, 0, 10]);
    assert_eq!(calls::commit(&mut book, &ninth, &mut out), Answer { number: 18, count: 0 });
    assert_eq!(calls::ask(&book, 0, 5).ticket, ninth);
    let stale = ticket([0, 5, 2, 50_000, 0, 9]);
    assert_eq!(calls::commit(&mut book, &stale, &mut out).number, 17);
    assert_eq!(book, before);
}

#[test]
fn full_units_that_lie_apart_fail_as_one_stretch_at_the_first() {
    let nets = [(1, 300_000), (2, 200_000), (3, -500_000)];
    let mut book = book_of_nets(Phase::Settling, &nets);
    let mut out = output();
    assert_eq!(lift(&mut book, 3, &mut out), 0);
    let apart = [(2, 100_000), (1, 100_000), (1, 100_000), (1, 100_000), (2, 100_000)];
    assert_eq!(order(&book, 0), apart);
    assert_eq!(calls::deliver(&mut book, 0, 3, 50_000, &mut out).count, 0);
    assert_eq!(calls::cutoff(&mut book, &mut out), Answer { number: 0, count: 3 });
    let records = [
        record(HANDOVER, 0, 0, 2, 50_000),
        record(FAIL, 0, 3, 2, 150_000),
        record(FAIL, 0, 3, 1, 300_000),
    ];
    assert_eq!(out, output_of(&records));
    assert_eq!(book.ledger(), [entry(0, 3, 2, 150_000, 0), entry(0, 3, 1, 300_000, 0)]);
}

#[test]
fn a_full_unit_that_takes_the_stock_is_still_full() {
    let nets = [(1, 150_000), (2, 200_000), (3, -350_000)];
    let mut book = book_of_nets(Phase::Settling, &nets);
    let mut out = output();
    assert_eq!(lift(&mut book, 2, &mut out), 0);
    assert_eq!(order(&book, 0), [(1, 100_000), (2, 100_000), (2, 100_000), (1, 50_000)]);
    calls::deliver(&mut book, 0, 3, 60_000, &mut out);
    assert_eq!(calls::cutoff(&mut book, &mut out).number, 0);
    let fails = [entry(0, 3, 1, 40_000, 0), entry(0, 3, 2, 200_000, 0), entry(0, 3, 1, 50_000, 0)];
    assert_eq!(book.ledger(), fails);
}

#[test]
fn the_new_place_is_that_of_the_next_unit_and_old_places_follow_earlier_lifts() {
    let nets = [(1, 90_000), (2, 80_000), (3, 70_000), (4, 60_000), (5, -300_000)];
    let mut book = book_of_nets(Phase::Settling, &nets);
    let mut out = output();
    assert_eq!(lift(&mut book, 3, &mut out), 0);
    assert_eq!(lift(&mut book, 3, &mut out), 0);
    let accounts = |book: &Book| order(book, 0).iter().map(|unit| unit.0).collect::<Vec<_>>();
    assert_eq!(accounts(&book), [3, 4, 1, 2]);
    assert_eq!(calls::deliver(&mut book, 0, 5, 140_000, &mut out).count, 2);
    assert_eq!(lift(&mut book, 3, &mut out), 0);
    assert_eq!(accounts(&book), [3, 4, 2, 1]);
    assert_eq!(places(&book), [(3, 0), (3, 0), (3, 2)]);
    assert_eq!(book.lifts[0].count, 4);
    assert!(book.sound());
}

#[test]
fn a_commit_hands_over_the_lifted_unit_and_no_more() {
    let nets = [(1, 100_000), (2, 40_000), (3, 30_000), (4, -170_000)];
    let mut book = book_of_nets(Phase::Settling, &nets);
    let mut out = output();
    assert_eq!(calls::deliver(&mut book, 0, 4, 99_999, &mut out).count, 0);
    assert_eq!(lift(&mut book, 2, &mut out), 1);
    assert_eq!(out, output_of(&[record(HANDOVER, 0, 0, 3, 30_000)]));
    assert_eq!(lift(&mut book, 2, &mut out), 1);
    assert_eq!(places(&book), [(2, 0), (2, 1)]);
    assert_eq!(book.delivered_total(0), 99_999);
    assert!(book.sound());
}

#[test]
fn a_ticket_is_spoiled_by_a_delivery_in_its_issue_alone() {
    let mut book = p7_book(0);
    book.nets[64 + 8] = 5;
    book.nets[64 + 9] = -5;
    book.set_ledger(&[entry(0, 1, 2, 10, 0)]);
    let ticket = calls::ask(&book, 0, 6).ticket;
    let mut out = output();
    assert_eq!(calls::deliver(&mut book, 1, 9, 1, &mut out).number, 0);
    assert_eq!(calls::resolve(&mut book, 0, 1, 3, &mut out).number, 0);
    assert_eq!(calls::pair_off(&mut book, 0, 1).number, 0);
    assert_eq!(calls::commit(&mut book.clone(), &ticket, &mut out).number, 0);
    assert_eq!(calls::deliver(&mut book, 0, 5, 55_001, &mut out).number, 9);
    assert_eq!(calls::commit(&mut book.clone(), &ticket, &mut out).number, 0);
    assert_eq!(calls::deliver(&mut book, 0, 5, 1, &mut out), Answer { number: 0, count: 0 });
    assert_eq!(calls::commit(&mut book, &ticket, &mut out).number, 17);
    assert_eq!((book.lifts[0].count, book.lifts[1].count), (3, 1));
}
