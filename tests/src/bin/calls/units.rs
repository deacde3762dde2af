//! Part units: the unit question in both orders on random nets with many ties, many rounds and with
//! lifts, beside units stored one by one.

use crate::Failure;
use reference::book::{Book, Phase};
use reference::units::units_of;
use settlement_day::raw::{self, UnitAnswer};
use tests::books::{deliver_some, lift_some, move_lots, two_of, MENU};
use tests::convert::{library_book, same_numbers};
use tests::report::Mismatch;
use tests::rng::Rng;
use tests::steps::{steps_to, text_of, Call, Step};

/// What is asked beyond the number of units.
pub const BEYOND: [u32; 6] = [255, 256, 65_535, 65_536, 1 << 31, u32::MAX];
/// Of orders that have more units than this not every unit is asked.
const ALL_ASKED: usize = 600;
/// One of so many books has full units of many rounds.
const MANY_ROUNDS: u32 = 30;

/// Asks every unit of random issues, and beyond; gives the answers compared.
pub fn run(seed: u64, cases: u64) -> Result<u64, Failure> {
    let mut compared = 0;
    for at in 0..cases {
        let mut rng = Rng::of_case(seed ^ 0x756e_6974, at);
        let issue = rng.range(0, 15);
        let book = random_nets(&mut rng, issue);
        for turn in [0, u32::from(book.day)] {
            compared += ask_all(&Book { turn, ..book.clone() }, issue)?;
        }
    }
    Ok(compared)
}

/// A book of day 1 with random nets in an issue, in the old order or the new: few or many receivers,
/// many of them equal.
pub fn random_nets(rng: &mut Rng, issue: u32) -> Book {
    let phase = *rng.pick(&[Phase::Taking, Phase::Settling, Phase::Cut]);
    let mut book = Book { day: 1, turn: rng.range(0, 1), phase, ..Book::fresh() };
    let accounts: Vec<u32> = (0..rng.range(2, 64)).collect();
    let menu = [*rng.pick(&MENU), *rng.pick(&MENU), 100_000 * rng.range(1, 3)];
    for _ in 0..rng.range(0, 2 * accounts.len() as u32) {
        let (from, to) = two_of(rng, &accounts);
        move_lots(&mut book, issue, from, to, *rng.pick(&menu));
    }
    if rng.chance(1, 10) {
        let (from, to) = two_of(rng, &accounts);
        move_lots(&mut book, issue, from, to, rng.range(1, 20_000_000));
    }
    if rng.chance(1, MANY_ROUNDS) {
        many_rounds(rng, &mut book, issue);
    }
    if phase != Phase::Taking {
        deliver_some(rng, &mut book);
        lift_some(rng, &mut book, issue as usize);
    }
    book
}

/// Up to 32 receivers, each with up to 200 full units and mostly as many as some others, so that full
/// units are dealt in many rounds; as many accounts deliver.
fn many_rounds(rng: &mut Rng, book: &mut Book, issue: u32) {
    let counts = [rng.range(1, 200), rng.range(1, 200), rng.range(1, 20), 1];
    for at in 0..rng.range(2, 32) {
        let lots = 100_000 * *rng.pick(&counts) + rng.range(0, 1) * rng.range(0, 99_999);
        move_lots(book, issue, 63 - at, at, lots.min(20_000_000));
    }
}

/// Asks every k up to the number of units, two more, and some far beyond; of very many units some.
fn ask_all(book: &Book, issue: u32) -> Result<u64, Mismatch> {
    let asked_book = library_book(book);
    let units = units_of(book, issue as usize);
    let step = 1 + units.len() / ALL_ASKED;
    let edges = units.len().saturating_sub(1)..units.len() + 2;
    let asked = (0..units.len()).step_by(step).chain(edges).map(|k| k as u32).chain(BEYOND);
    let mut compared = 0;
    for k in asked {
        let expected = units.get(k as usize).map_or(none(), |unit| UnitAnswer {
            refusal: 0,
            found: 1,
            account: unit.account,
            lots: unit.lots,
        });
        let answer = raw::unit(&asked_book.columns(), issue, k);
        if answer != expected || !same_numbers(book, &asked_book) {
            let mut steps = steps_to(book);
            steps.push(Step::Call(Call::Unit { issue, k }));
            let [reference, library] = [expected, answer].map(|answer| format!("{answer:?}"));
            return Err(Mismatch { case: text_of(&steps), reference, library });
        }
        compared += 1;
    }
    Ok(compared)
}

/// The answer 'none'.
fn none() -> UnitAnswer {
    UnitAnswer { refusal: 0, found: 0, account: 0, lots: 0 }
}
