//! `simulation`: unit sizes tried on a simulated desk, by the library and by the second engine.
//!
//! Every small market of up to four accounts in two settlement accounts with every small inventory,
//! at every small size; markets in which one unit goes round and round; every question at its edge;
//! damaged books and lists of other lengths; then random desks. The second engine keeps units one by
//! one and makes every round; the library makes equal rounds as one step. Some desks are of a day on
//! which a book's full units are dealt in turn, which changes nothing here. `--replay` takes `size S`,
//! `turn DAY`, `settle ACCOUNT SETTLEMENT`, `hold PLACE LOTS` and `net PLACE NET`.

use reference::book::{place, Book, ACCOUNTS, ISSUES};
use reference::simulation::{simulate, Outcome, Units, SETTLEMENT_ACCOUNTS};
use settlement_day::raw::{self, Simulated};
use std::collections::BTreeSet;
use std::process::ExitCode;
use tests::convert::library_book;
use tests::desks::Trial;
use tests::options::Options;
use tests::report::{progress, Mismatch};
use tests::rng::Rng;

const DEFAULT_CASES: u64 = 20_000;
const MOST_LOTS: u32 = 20_000_000;
/// The numbers that can be answered, by the papers; 0 is done.
const NUMBERS: [u32; 4] = [0, 2, 5, 7];
/// The rounds of the market that takes the most, at size 1, one issue.
const MOST_ROUNDS: u64 = 319_999_865;

/// The library's answer.
fn by_library(trial: &Trial) -> Simulated {
    let (book, plan) = (library_book(&trial.book), &trial.plan);
    raw::simulate(&book.columns(), &plan.settlement, &plan.inventories, plan.size)
}

/// The second engine's answer, in the library's form.
fn by_reference(trial: &Trial, units: Units) -> Simulated {
    let found = simulate(&trial.book, &trial.plan, units);
    let refusal = found.err().unwrap_or(0);
    let Outcome { deliveries, rounds, owed } = found.unwrap_or_default();
    Simulated { refusal, deliveries, rounds, owed: owed.map(|lots| lots as u32) }
}

/// Puts the case to both; gives the number.
fn compare(trial: &Trial, units: Units) -> Result<u32, Mismatch> {
    let expected = by_reference(trial, units);
    Mismatch::of(trial, expected, by_library(trial))?;
    Ok(expected.refusal)
}

/// The digits of a number in a base, so many of them.
fn digits(mut number: u32, base: u32, count: usize) -> Vec<u32> {
    let digit = |_| {
        let digit = number % base;
        number /= base;
        digit
    };
    (0..count).map(digit).collect()
}

/// All nets of four accounts within ±2 that sum to 0.
fn small_nets() -> Vec<[i32; 4]> {
    let nets = (0..625).map(|number| {
        let digits = digits(number, 5, 4);
        std::array::from_fn(|at| digits[at] as i32 - 2)
    });
    nets.filter(|nets: &[i32; 4]| nets.iter().sum::<i32>() == 0).collect()
}

/// Every small market with every settlement account of two, every inventory of 0 to 2, sizes 1 to 3;
/// how many there are.
fn small_markets(met: &mut BTreeSet<u32>) -> Result<u64, Mismatch> {
    let mut cases = 0;
    for nets in small_nets() {
        for settlement in 0..16 {
            for inventory in 0..9 {
                for size in 1..=3 {
                    let mut trial = Trial::of_size(size);
                    trial.book.nets[..4].copy_from_slice(&nets);
                    trial.plan.settlement[..4].copy_from_slice(&digits(settlement, 2, 4));
                    trial.plan.inventories[..2].copy_from_slice(&digits(inventory, 3, 2));
                    met.insert(compare(&trial, Units::OneByOne)?);
                    cases += 1;
                }
            }
        }
    }
    Ok(cases)
}

/// Markets in which a unit goes round, up to some ten thousand rounds, in one issue and in several.
fn rings() -> Result<u64, Mismatch> {
    let mut cases = 0;
    for size in [1, 2, 3, 7] {
        for most in [40, 133, 700, 2_000] {
            for issues in [1, 3] {
                let mut trial = Trial::of_size(size);
                for issue in 0..issues {
                    trial.round_and_round(issue * 5, (most - 11 * issue as u32) * size);
                }
                compare(&trial, Units::Runs)?;
                cases += 1;
            }
        }
    }
    Ok(cases)
}

/// The market of the most rounds, which only the library makes in one step: its rounds are known.
fn longest() -> Result<(), Mismatch> {
    let mut trial = Trial::of_size(1);
    trial.round_and_round(0, MOST_LOTS);
    let answer = by_library(&trial);
    Mismatch::of(&trial, (0, MOST_ROUNDS), (answer.refusal, answer.rounds))
}

/// What is done to a desk that is accepted.
type Edge = fn(&mut Trial);

/// What spoils it, and what stays just within the edge.
const EDGES: [Edge; 12] = [
    |_| (),
    |trial| trial.book.nets[0] += 1,
    |trial| trial.book.charges[0] = 1,
    |trial| trial.plan.settlement[0] = 16,
    |trial| trial.plan.settlement[63] = u32::MAX,
    |trial| trial.plan.size = 0,
    |trial| trial.plan.size = 100_001,
    |trial| trial.plan.size = u32::MAX,
    |trial| trial.plan.size = 100_000,
    |trial| trial.plan.inventories[0] = MOST_LOTS + 1,
    |trial| trial.plan.inventories[255] = u32::MAX,
    |trial| trial.plan.inventories[255] = MOST_LOTS,
];

/// A desk that is accepted.
fn accepted() -> Trial {
    let mut trial = Trial::of_size(10);
    (trial.book.nets[0], trial.book.nets[1], trial.book.nets[2]) = (-35, 20, 15);
    trial.hold(0, 0, 12);
    trial
}

/// Every edge alone and every two of them; how many there are.
fn edges(met: &mut BTreeSet<u32>) -> Result<u64, Mismatch> {
    for one in EDGES {
        for other in EDGES {
            let mut trial = accepted();
            one(&mut trial);
            other(&mut trial);
            met.insert(compare(&trial, Units::Runs)?);
        }
    }
    Ok((EDGES.len() * EDGES.len()) as u64)
}

/// Lists and columns of other lengths, and a phase that is none.
fn lengths() -> Result<u64, Mismatch> {
    let trial = accepted();
    let book = library_book(&trial.book);
    let (settles, held) = (&trial.plan.settlement[..], &trial.plan.inventories[..]);
    let longer = |list: &[u32]| [list, &[0]].concat();
    let put = |columns: &raw::Columns, settles: &[u32], held: &[u32]| {
        let answer = raw::simulate(columns, settles, held, 10);
        let nothing = (answer.deliveries, answer.rounds) == (0, 0) && answer.owed == [0; ISSUES];
        (answer.refusal, nothing)
    };
    let columns = book.columns();
    let answers = [
        (5, put(&columns, &settles[..63], held)),
        (5, put(&columns, &longer(settles), held)),
        (5, put(&columns, &[], &[])),
        (7, put(&columns, settles, &held[..255])),
        (7, put(&columns, settles, &longer(held))),
        (2, put(&raw::Columns { nets: &columns.nets[..1023], ..columns }, settles, held)),
        (2, put(&raw::Columns { days: &columns.days[..2047], ..columns }, settles, held)),
        (2, put(&raw::Columns { lifts: &[], ..columns }, &[], &[])),
        (2, put(&raw::Columns { phase: 3, ..columns }, settles, held)),
    ];
    for (number, answer) in answers {
        Mismatch::of(&trial, (number, true), answer)?;
    }
    Ok(answers.len() as u64)
}

/// A random desk: few or many accounts and settlement accounts, nets from small to the largest,
/// inventories from nothing to more than is owed, and a size that suits them.
fn random(rng: &mut Rng) -> Trial {
    let most = *rng.pick(&[4, 60, 1_000, 300_000]);
    let size = *rng.pick(&[1, 2, 7, 50, 1_000, 99_999, 100_000]);
    let mut trial = Trial::of_size(size.max(most / 2_000));
    let accounts = *rng.pick(&[3, 6, 20, ACCOUNTS as u32]);
    let settlements = *rng.pick(&[1, 2, 5, SETTLEMENT_ACCOUNTS as u32]);
    let issues = *rng.pick(&[1, 2, ISSUES]);
    for settlement in &mut trial.plan.settlement {
        *settlement = rng.range(0, settlements - 1);
    }
    let share = *rng.pick(&[1, 3, 100]);
    for issue in 0..issues {
        for _ in 0..2 * accounts {
            let (from, to) = (rng.range(0, accounts - 1), rng.range(0, accounts - 1));
            trade(&mut trial.book, issue, from, to, rng.range(1, most));
        }
        for settlement in 0..settlements as usize {
            trial.hold(issue, settlement, rng.range(0, most / share + 1));
        }
    }
    if rng.chance(1, 3) {
        trial.turn(rng.range(1, 65_535) as u16);
    }
    if rng.chance(1, 12) {
        rng.pick(&EDGES)(&mut trial);
    }
    trial
}

/// Moves lots from one net to another, within their limits.
fn trade(book: &mut Book, issue: usize, from: u32, to: u32, lots: u32) {
    let (from, to) = (place(issue, from as usize), place(issue, to as usize));
    let (less, more) = (book.nets[from] - lots as i32, book.nets[to] + lots as i32);
    if from != to && less.unsigned_abs() <= MOST_LOTS && more.unsigned_abs() <= MOST_LOTS {
        (book.nets[from], book.nets[to]) = (less, more);
    }
}

/// Fails where a number was never answered.
fn every_number(met: &BTreeSet<u32>) -> Result<(), String> {
    match NUMBERS.into_iter().find(|number| !met.contains(number)) {
        Some(number) => Err(format!("never met: answer {number}")),
        None => Ok(()),
    }
}

/// Runs the cases that the command line asks for; the last line.
fn run(options: &Options) -> Result<String, String> {
    let told = |mismatch: Mismatch| format!("{mismatch}\nseed {}", options.seed);
    if let Some(words) = &options.replay {
        let trial = Trial::parse(words.clone())?;
        let number = compare(&trial, Units::Runs).map_err(told)?;
        return Ok(format!("simulation: 1 case agrees: number {number}"));
    }
    let mut met = BTreeSet::new();
    let small = small_markets(&mut met).map_err(told)?;
    eprintln!("{small} small markets agree");
    let rings = rings().map_err(told)?;
    longest().map_err(told)?;
    let edges = edges(&mut met).map_err(told)? + lengths().map_err(told)?;
    for at in 0..options.cases {
        let trial = random(&mut Rng::of_case(options.seed, at));
        let units = if at % 2 == 0 { Units::Runs } else { Units::OneByOne };
        met.insert(compare(&trial, units).map_err(told)?);
        progress(at + 1, options.cases);
    }
    every_number(&met)?;
    let agreed = small + rings + 1 + edges + options.cases;
    Ok(format!(
        "simulation: {agreed} cases agree ({small} small, {rings} rings, {edges} of edges, {} random)",
        options.cases
    ))
}

fn main() -> ExitCode {
    match Options::of_command_line(DEFAULT_CASES, &[]).and_then(|options| run(&options)) {
        Ok(line) => {
            println!("{line}");
            ExitCode::SUCCESS
        }
        Err(error) => {
            eprintln!("simulation: {error}");
            ExitCode::FAILURE
        }
    }
}
