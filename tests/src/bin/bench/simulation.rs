//! Unit sizes on a simulated desk: a full market with inventories from next to nothing to all that is
//! owed, and the market that takes the most rounds.

use reference::book::{place, Book, ACCOUNTS, ISSUES};
use reference::simulation::{simulate, Units, SETTLEMENT_ACCOUNTS};
use settlement_day::raw::{self, Simulated};
use std::time::Instant;
use tests::convert::library_book;
use tests::desks::Trial;
use tests::rng::Rng;

const SIZES: [u32; 3] = [1, 1_000, 100_000];
const MOST_LOTS: u32 = 20_000_000;
/// Inventories in millionths of what is owed: 0.0001 percent to all of it.
const MILLIONTHS: [u64; 5] = [1, 100, 10_000, 100_000, 1_000_000];
/// A market with more rounds is made by the library alone.
const MOST_ROUNDS_ONE_BY_ONE: u64 = 1_000_000;

/// Prints the tables.
pub fn run() {
    println!("\n### Unit sizes on a simulated desk, in microseconds\n");
    println!("A full market, 16 issues and 64 accounts; inventories in percent of what is owed.\n");
    println!("| size | inventories | rounds | deliveries | library | second engine |");
    println!("|--:|--:|--:|--:|--:|--:|");
    for size in SIZES {
        for millionths in MILLIONTHS {
            row(&format!("{}", millionths as f64 / 10_000.0), &full_market(size, millionths));
        }
    }
    println!(
        "\nThe market that takes the most rounds, one unit going round, in 1 and in 16 issues.\n"
    );
    println!("| size | issues | rounds | deliveries | library | second engine |");
    println!("|--:|--:|--:|--:|--:|--:|");
    for size in SIZES {
        for issues in [1, ISSUES] {
            let mut trial = Trial::of_size(size);
            (0..issues).for_each(|issue| trial.round_and_round(issue, MOST_LOTS));
            row(&issues.to_string(), &trial);
        }
    }
}

/// Times a desk in both engines and prints it; what they answer must be the same.
fn row(what: &str, trial: &Trial) {
    let (book, plan) = (library_book(&trial.book), &trial.plan);
    let start = Instant::now();
    let answer = raw::simulate(&book.columns(), &plan.settlement, &plan.inventories, plan.size);
    let library = start.elapsed().as_micros();
    let Simulated { refusal, deliveries, rounds, .. } = answer;
    assert_eq!(refusal, 0, "the desk is accepted");
    let second = match rounds <= MOST_ROUNDS_ONE_BY_ONE {
        true => by_reference(trial, &answer).to_string(),
        false => "–".to_string(),
    };
    println!("| {} | {what} | {rounds} | {deliveries} | {library} | {second} |", plan.size);
}

/// Microseconds of the second engine, whose answer must be the library's.
fn by_reference(trial: &Trial, answer: &Simulated) -> u128 {
    let start = Instant::now();
    let found = simulate(&trial.book, &trial.plan, Units::Runs).expect("the desk is accepted");
    let time = start.elapsed().as_micros();
    assert_eq!((found.deliveries, found.rounds), (answer.deliveries, answer.rounds));
    assert_eq!(found.owed, answer.owed.map(u64::from));
    time
}

/// Nets of up to 20,000,000 lots in every issue and account, deliverers and receivers side by side in a
/// settlement account, so that lots go on, and inventories that are so many
/// millionths of what the accounts of each settlement account owe.
fn full_market(size: u32, millionths: u64) -> Trial {
    let mut rng = Rng::new(7);
    let mut trial = Trial::of_size(size);
    for (account, settlement) in trial.plan.settlement.iter_mut().enumerate() {
        *settlement = (account * SETTLEMENT_ACCOUNTS / ACCOUNTS) as u32;
    }
    for issue in 0..ISSUES {
        for account in (0..ACCOUNTS).step_by(2) {
            let lots = rng.range(1, MOST_LOTS) as i32;
            let other = (account + 1 + 2 * rng.range(0, 31) as usize) % ACCOUNTS;
            trade(&mut trial.book, issue, account, other, lots);
        }
        for settlement in 0..SETTLEMENT_ACCOUNTS {
            let owed = owed_from(&trial.book, &trial.plan.settlement, issue, settlement as u32);
            let held = (owed * millionths).div_ceil(1_000_000).min(u64::from(MOST_LOTS));
            trial.hold(issue, settlement, held as u32);
        }
    }
    trial
}

/// Moves lots from one net to another where both stay within their limits.
fn trade(book: &mut Book, issue: usize, from: usize, to: usize, lots: i32) {
    let (from, to) = (place(issue, from), place(issue, to));
    if book.nets[to] + lots <= MOST_LOTS as i32 {
        book.nets[from] -= lots;
        book.nets[to] += lots;
    }
}

/// What the accounts of a settlement account owe of an issue.
fn owed_from(book: &Book, settles: &[u32], issue: usize, settlement: u32) -> u64 {
    let of = |&account: &usize| settles[account] == settlement;
    let owed = |account| u64::from(book.nets[place(issue, account)].min(0).unsigned_abs());
    (0..ACCOUNTS).filter(of).map(owed).sum()
}
