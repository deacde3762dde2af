//! Both orders of full units in one run: the same markets, deliveries, last unit and cutoff, in the old
//! order and dealt in turn.
//!
//! The nets of an issue sum to 0, each within ±200 full units; so 32 receivers with 200 full units each
//! are the most that a sound book holds, and beside 63 receivers one account delivers 200 units in all.

use crate::programs::collected;
use crate::timing::{library_time, reference_time};
use reference::book::{place, Book, Phase, ACCOUNTS, ISSUES};
use reference::calls::{ask_on_sound, commit_on_sound};
use reference::measures::UNIT_LOTS;
use reference::units::units_of;
use std::process::Command;
use tests::convert::library_book;
use tests::engines::{by_library, by_reference};
use tests::steps::Call;

/// The issue of the deliveries and of the unit that is asked.
const ISSUE: u32 = 3;
/// The words of an output.
const OUT: usize = 4_096;
/// The lifts of an issue, where it has any.
const LIFTS: usize = 8;
/// The most units of one delivery, and of one account's net.
const MOST_UNITS: u32 = 200;
/// The day of the books.
const DAY: u16 = 300;

/// A market: its name, how many receivers it has, and the full units of each.
type Market = (&'static str, usize, fn(usize) -> u32);

/// The markets.
const MARKETS: [Market; 6] = [
    ("32 receivers, 200 full units each", 32, |_| MOST_UNITS),
    ("32 receivers, 101 each", 32, |_| 101),
    ("32 receivers, 1 to 200", 32, |at| 1 + at as u32 * 199 / 31),
    ("48 receivers, 66 each", 48, |_| 66),
    ("63 receivers, 3 each", 63, |_| 3),
    ("63 receivers, 1 to 5", 63, |at| 1 + at as u32 * 37 % 64 % 5),
];

/// Prints the table.
pub fn run(rounds: usize) {
    println!("\n### Old and new order of full units, in nanoseconds\n");
    println!(
        "| market | units | lifts in every issue | call | library, old | library, new | new / old | \
         second engine, old | second engine, new |"
    );
    println!("|---|--:|--:|---|--:|--:|--:|--:|--:|");
    for market in &MARKETS {
        for lifts in [0, LIFTS] {
            let books = [0, u32::from(DAY)].map(|turn| market_book(market, lifts, turn));
            let units = units_of(&books[0], ISSUE as usize).len() as u32;
            for (name, call) in measured_calls(units) {
                let [old, new] = books.each_ref().map(|book| times(book, &call, rounds));
                println!(
                    "| {} | {units} | {lifts} | {name} | {:.0} | {:.0} | {:.2} | {:.0} | {:.0} |",
                    market.0,
                    old[0],
                    new[0],
                    new[0] / old[0],
                    old[1],
                    new[1]
                );
            }
        }
    }
}

/// Prints the table of instructions that callgrind counts inside the library's call: of the same markets and
/// calls, each made once by this program under valgrind.
pub fn counts() -> Result<(), String> {
    let own = std::env::current_exe().map_err(|error| error.to_string())?;
    println!("\n### Old and new order of full units: instructions of the machine\n");
    println!("| market | lifts in every issue | call | library, old | library, new | new / old |");
    println!("|---|--:|---|--:|--:|--:|");
    for (at, market) in MARKETS.iter().enumerate() {
        let units: u32 = (0..market.1).map(market.2).sum();
        for lifts in [0, LIFTS] {
            for (which, (name, call)) in measured_calls(units).iter().enumerate() {
                let function =
                    if matches!(call, Call::Unit { .. }) { "day_unit" } else { "day_call" };
                let count = |turn: u32| {
                    let mut command = Command::new("valgrind");
                    command.arg(format!("--toggle-collect={function}"));
                    let one = format!("{at} {lifts} {turn} {which}");
                    collected(command, &own, &["--part", "one", "--one", &one], &[])
                };
                let [old, new] = [count(0)?, count(1)?];
                println!(
                    "| {} | {lifts} | {name} | {old} | {new} | {:.2} |",
                    market.0,
                    new as f64 / old as f64
                );
            }
        }
    }
    Ok(())
}

/// Makes one call by the library: of a market, with so many lifts, in the old order or the new, one of the
/// calls that are measured, each by its number.
pub fn one(numbers: &str) -> Result<(), String> {
    let wrong = || format!("{numbers:?} is not market, lifts, order and call");
    let numbers: Vec<usize> = numbers.split(' ').map_while(|number| number.parse().ok()).collect();
    let &[market, lifts, order, which] = numbers.as_slice() else { return Err(wrong()) };
    let market = MARKETS.get(market).ok_or_else(wrong)?;
    let book = market_book(market, lifts, if order == 0 { 0 } else { u32::from(DAY) });
    let units = units_of(&book, ISSUE as usize).len() as u32;
    let (_, call) = measured_calls(units).into_iter().nth(which).ok_or_else(wrong)?;
    let answer = by_library(&mut library_book(&book), &call, &mut vec![0; OUT]);
    assert_eq!(answer.number, 0, "{call} is accepted");
    Ok(())
}

/// The calls that are measured: a delivery of 1 unit and of 200, or of all that there are, the last
/// unit, and a cutoff of all issues.
fn measured_calls(units: u32) -> [(String, Call); 4] {
    let account = ACCOUNTS as u32 - 1;
    let deliver = |units: u32| {
        let call = Call::Deliver { issue: ISSUE, account, lots: units * UNIT_LOTS, out: OUT };
        let s = if units == 1 { "" } else { "s" };
        (format!("deliver {units} unit{s}"), call)
    };
    [
        deliver(1),
        deliver(MOST_UNITS.min(units)),
        ("unit, the last".to_string(), Call::Unit { issue: ISSUE, k: units - 1 }),
        ("cutoff".to_string(), Call::Cutoff { out: OUT }),
    ]
}

/// Nanoseconds of a call by the library and by the second engine; the call must be accepted.
fn times(book: &Book, call: &Call, rounds: usize) -> [f64; 2] {
    let answer = by_reference(&mut book.clone(), call, &mut vec![0; OUT]);
    assert_eq!(answer.number, 0, "{call} is accepted");
    [library_time(book, call, rounds), reference_time(book, call, rounds)]
}

/// The market in every issue of a book in Settling, with so many lifts in each, in the order that the
/// change-over day gives.
fn market_book(market: &Market, lifts: usize, turn: u32) -> Book {
    let (name, receivers, units) = *market;
    let mut book = Book { day: DAY, turn, phase: Phase::Settling, ..Book::fresh() };
    for issue in 0..ISSUES {
        let mut owed = 0;
        for at in 0..receivers {
            let lots = units(at) * UNIT_LOTS;
            book.nets[place(issue, at)] = lots as i32;
            owed += lots;
        }
        for account in (receivers..ACCOUNTS).rev() {
            let lots = owed.min(MOST_UNITS * UNIT_LOTS);
            book.nets[place(issue, account)] = -(lots as i32);
            owed -= lots;
        }
        (0..lifts).for_each(|at| lift(&mut book, issue, at));
    }
    assert!(book.sound(), "the book of {name} is sound");
    book
}

/// Lifts a unit of an issue; each number gives one at another place.
fn lift(book: &mut Book, issue: usize, at: usize) {
    let unit = units_of(book, issue).len() * (2 * at + 1) / 17;
    let ticket = ask_on_sound(book, issue as u32, unit as u32).ticket;
    let answer = commit_on_sound(book, &ticket, &mut vec![0; OUT]);
    assert_eq!(answer.number, 0, "unit {unit} of issue {issue} can be lifted");
}
