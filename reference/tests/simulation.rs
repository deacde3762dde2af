//! Unit sizes on a simulated desk: worked desks by their numbers, and every refusal.

use reference::book::{place, Book, ACCOUNTS, ISSUES};
use reference::simulation::{simulate, Outcome, Plan, Units, SETTLEMENT_ACCOUNTS};

/// Everybody in settlement account 0, and nothing there.
fn plan(size: u32) -> Plan {
    let inventories = vec![0; ISSUES * SETTLEMENT_ACCOUNTS];
    Plan { settlement: vec![0; ACCOUNTS], inventories, size }
}

/// A book with these nets of issue 0.
fn book(nets: &[i32]) -> Book {
    let mut book = Book::fresh();
    book.nets[..nets.len()].copy_from_slice(nets);
    book
}

/// Deliveries, rounds and the lots still owed of issue 0; both ways of keeping units agree.
fn tried(book: &Book, plan: &Plan) -> (u64, u64, u64) {
    let outcome = simulate(book, plan, Units::OneByOne);
    assert_eq!(outcome, simulate(book, plan, Units::Runs));
    let Outcome { deliveries, rounds, owed } = outcome.unwrap();
    (deliveries, rounds, owed[0])
}

#[test]
fn a_ring_jams_at_100_000_and_runs_free_at_10_000() {
    let book = book(&[-100_000, 60_000, 40_000]);
    let half = |size| {
        let mut plan = plan(size);
        plan.inventories[0] = 50_000;
        plan
    };
    assert_eq!(tried(&book, &half(100_000)), (1, 2, 50_000));
    assert_eq!(tried(&book, &half(10_000)), (2, 3, 0));
}

#[test]
fn what_is_handed_can_be_delivered_in_the_same_round() {
    // 0 gives 5 to 1's settlement account, from which 2 delivers; 3 delivers before that is there.
    let mut plan = plan(5);
    plan.settlement[..4].copy_from_slice(&[0, 1, 1, 2]);
    plan.inventories[0] = 5;
    assert_eq!(tried(&book(&[-5, 10, -5]), &plan), (2, 2, 0));
    assert_eq!(
        tried(&book(&[-5, -5, 10]), &{
            let mut plan = plan.clone();
            plan.settlement[..3].copy_from_slice(&[1, 0, 1]);
            plan
        }),
        (2, 3, 0)
    );
}

#[test]
fn enough_in_every_settlement_account_is_over_in_the_first_round() {
    let mut plan = plan(100_000);
    plan.inventories[0] = 400_000;
    assert_eq!(tried(&book(&[-250_000, -150_000, 400_000]), &plan), (2, 2, 0));
}

#[test]
fn nobody_owes_and_nothing_moves() {
    assert_eq!(tried(&Book::fresh(), &plan(1)), (0, 1, 0));
}

#[test]
fn issues_go_side_by_side() {
    let mut book = book(&[-1, 1]);
    (book.nets[place(15, 0)], book.nets[place(15, 1)]) = (2, -2);
    let mut plan = plan(1);
    plan.inventories[15 * SETTLEMENT_ACCOUNTS] = 1;
    let outcome = simulate(&book, &plan, Units::Runs).unwrap();
    assert_eq!((outcome.deliveries, outcome.rounds), (2, 3));
    assert_eq!((outcome.owed[0], outcome.owed[15]), (1, 0));
}

#[test]
fn the_book_is_only_read_for_its_nets() {
    let mut settling = book(&[-6, 6]);
    settling.phase = reference::book::Phase::Settling;
    settling.delivered[0] = 5;
    let mut plan = plan(1);
    plan.inventories[0] = 4;
    assert_eq!(tried(&settling, &plan), (2, 3, 0));
}

#[test]
fn the_order_is_that_of_document_001_also_where_full_units_are_dealt_in_turn() {
    let old = Book { day: 9, ..book(&[-3, 2, 2, -1]) };
    let new = Book { turn: 9, ..old.clone() };
    let mut plan = plan(1);
    plan.settlement[..4].copy_from_slice(&[0, 1, 2, 2]);
    plan.inventories[0] = 2;
    assert!(new.deals_in_turn());
    // Dealt in turn, account 2 would be handed a lot, which account 3 would deliver.
    assert_eq!((tried(&new, &plan), tried(&old, &plan)), ((1, 2, 2), (1, 2, 2)));
}

#[test]
fn every_refusal_in_its_order() {
    let sound = book(&[-5, 5]);
    let unsound = book(&[-5, 4]);
    let refused = |book: &Book, change: fn(&mut Plan)| {
        let mut plan = plan(1);
        change(&mut plan);
        simulate(book, &plan, Units::Runs).err()
    };
    let account: fn(&mut Plan) = |plan| plan.settlement[63] = 16;
    let both: fn(&mut Plan) = |plan| (plan.settlement[0], plan.size) = (16, 0);
    let lots: [fn(&mut Plan); 5] = [
        |plan| plan.size = 0,
        |plan| plan.size = 100_001,
        |plan| plan.inventories[255] = 20_000_001,
        |plan| plan.inventories.truncate(255),
        |plan| plan.inventories.push(0),
    ];
    assert_eq!(refused(&unsound, account), Some(2));
    assert_eq!(refused(&sound, account), Some(5));
    assert_eq!(refused(&sound, both), Some(5));
    assert_eq!(refused(&sound, |plan| plan.settlement.truncate(63)), Some(5));
    assert_eq!(lots.map(|change| refused(&sound, change)), [Some(7); 5]);
    assert_eq!(refused(&sound, |plan| plan.inventories[255] = 20_000_000), None);
    assert_eq!(refused(&sound, |plan| plan.size = 100_000), None);
}
