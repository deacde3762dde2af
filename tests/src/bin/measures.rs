//! `measures`: value and charge of the library beside those of the second engine.
//!
//! Every combination of edges, then random cases. `--replay value L P A` and
//! `--replay charge L P D R A` run one case alone.

use reference::measures::{self, MOST_ACCRUED, MOST_DAYS, MOST_LOTS, MOST_PRICE, MOST_RATE};
use settlement_day::raw;
use std::collections::BTreeSet;
use std::fmt;
use std::process::ExitCode;
use tests::options::{number, Options};
use tests::report::{progress, Mismatch};
use tests::rng::Rng;

const DEFAULT_CASES: u64 = 3_000_000;
/// The numbers that value and charge can answer, by the paper; 0 is done.
const NUMBERS: [(&str, u32); 6] =
    [("value", 0), ("value", 7), ("value", 11), ("charge", 0), ("charge", 7), ("charge", 11)];
/// Lots, prices and accrued amounts with odd products, whose value is rounded.
const ODD: [u32; 3] = [3, 49_999, 99_999];

/// One question to both engines.
#[derive(Clone, Copy)]
enum Case {
    Value { lots: u32, price: u32, accrued: u32 },
    Charge { lots: u32, price: u32, days: u32, rate: u32, accrued: u32 },
}

impl fmt::Display for Case {
    /// The words that `--replay` takes.
    fn fmt(&self, text: &mut fmt::Formatter) -> fmt::Result {
        match *self {
            Case::Value { lots, price, accrued } => write!(text, "value {lots} {price} {accrued}"),
            Case::Charge { lots, price, days, rate, accrued } => {
                write!(text, "charge {lots} {price} {days} {rate} {accrued}")
            }
        }
    }
}

impl Case {
    /// The second engine's refusal number and yen.
    fn reference(self) -> (u32, u64) {
        match self {
            Case::Value { lots, price, accrued } => measures::value(lots, price, accrued),
            Case::Charge { lots, price, days, rate, accrued } => {
                measures::charge(lots, price, days, rate, accrued)
            }
        }
    }

    /// The library's refusal number and yen.
    fn library(self) -> (u32, u64) {
        match self {
            Case::Value { lots, price, accrued } => raw::value(lots, price, accrued),
            Case::Charge { lots, price, days, rate, accrued } => {
                raw::charge(lots, price, days, rate, accrued)
            }
        }
    }

    /// Puts the case to both engines.
    fn compare(self) -> Result<(), Mismatch> {
        Mismatch::of(&self, self.reference(), self.library())
    }

    /// Reads a case from the words after `--replay`.
    fn parse(words: Vec<String>) -> Result<Case, String> {
        const FORMS: &str = "--replay takes: value L P A, or charge L P D R A";
        let mut words = words.into_iter();
        let name = words.next().ok_or(FORMS)?;
        let mut next = |of: &str| number(of, words.next());
        let case = match name.as_str() {
            "value" => Case::Value { lots: next("L")?, price: next("P")?, accrued: next("A")? },
            "charge" => Case::Charge {
                lots: next("L")?,
                price: next("P")?,
                days: next("D")?,
                rate: next("R")?,
                accrued: next("A")?,
            },
            _ => return Err(FORMS.to_string()),
        };
        words.next().map_or(Ok(case), |_| Err(FORMS.to_string()))
    }
}

fn main() -> ExitCode {
    let outcome = Options::of_command_line(DEFAULT_CASES, &[]).and_then(run);
    match outcome {
        Ok(line) => {
            println!("{line}");
            ExitCode::SUCCESS
        }
        Err(error) => {
            eprintln!("measures: {error}");
            ExitCode::FAILURE
        }
    }
}

/// Runs one replayed case, or all edges and random cases; gives the last line.
fn run(options: Options) -> Result<String, String> {
    if let Some(words) = options.replay {
        return replay(Case::parse(words)?);
    }
    let with_seed = |mismatch: Mismatch| format!("seed {}\n{mismatch}", options.seed);
    let mut met = BTreeSet::new();
    let edges = compare_edges(&mut met).map_err(with_seed)?;
    eprintln!("{edges} combinations of edges agree");
    for (name, number) in NUMBERS {
        if !met.contains(&(name, number)) {
            return Err(format!("the edges never met: {name} answers {number}"));
        }
    }
    compare_random(options.seed, options.cases).map_err(with_seed)?;
    let Options { seed, cases, .. } = options;
    let agreed = edges + cases;
    Ok(format!("measures: {agreed} cases agree ({edges} of edges, {cases} random of seed {seed})"))
}

/// Shows both answers of one case.
fn replay(case: Case) -> Result<String, String> {
    case.compare().map_err(|mismatch| mismatch.to_string())?;
    let (number, yen) = case.reference();
    Ok(format!("measures: 1 case agrees: {case} gives number {number}, {yen} yen"))
}

/// Puts every combination of edges and notes the numbers met; gives how many there are.
fn compare_edges(met: &mut BTreeSet<(&'static str, u32)>) -> Result<u64, Mismatch> {
    let mut agreed = 0;
    for lots in edges(MOST_LOTS, &ODD) {
        for price in edges(MOST_PRICE, &ODD) {
            for accrued in accrued_edges(price) {
                let value = Case::Value { lots, price, accrued };
                value.compare()?;
                met.insert(("value", value.library().0));
                agreed += 1 + compare_charge_edges(lots, price, accrued, met)?;
            }
        }
    }
    Ok(agreed)
}

/// The edges of an accrued amount: its own, and those of what is left to the price.
fn accrued_edges(price: u32) -> Vec<u32> {
    let left = MOST_PRICE.saturating_sub(price);
    vec![0, 1, 2, 49, MOST_ACCRUED - 1, MOST_ACCRUED, MOST_ACCRUED + 1, left, left + 1, u32::MAX]
}

/// Puts every combination of edges of days and rate with these lots, price and accrued amount.
fn compare_charge_edges(
    lots: u32,
    price: u32,
    accrued: u32,
    met: &mut BTreeSet<(&'static str, u32)>,
) -> Result<u64, Mismatch> {
    let mut agreed = 0;
    for days in edges(MOST_DAYS, &[]) {
        for rate in edges(MOST_RATE, &ODD) {
            let charge = Case::Charge { lots, price, days, rate, accrued };
            charge.compare()?;
            met.insert(("charge", charge.library().0));
            agreed += 1;
        }
    }
    Ok(agreed)
}

/// The edges of an argument with this limit, and more numbers beside them.
fn edges(limit: u32, more: &[u32]) -> Vec<u32> {
    let mut edges = vec![0, 1, 2, limit - 1, limit, limit + 1, 1 << 31, u32::MAX];
    edges.extend(more);
    edges
}

/// Puts random cases, value and charge in turn.
fn compare_random(seed: u64, cases: u64) -> Result<(), Mismatch> {
    for at in 0..cases {
        let mut rng = Rng::of_case(seed, at);
        let [lots, price, days, rate, accrued] = random_arguments(&mut rng);
        if at % 2 == 0 {
            Case::Value { lots, price, accrued }.compare()?;
        } else {
            Case::Charge { lots, price, days, rate, accrued }.compare()?;
        }
        progress(at + 1, cases);
    }
    Ok(())
}

/// Lots, price, days, rate and accrued: in range, whole, near the edges, one of them out of place, or wild.
fn random_arguments(rng: &mut Rng) -> [u32; 5] {
    match rng.range(0, 9) {
        0..=3 => in_range(rng),
        4 => whole(rng),
        5 | 6 => LIMITS.map(|limit| near_edge(rng, limit)),
        7 | 8 => one_out_of_place(rng),
        _ => LIMITS.map(|_| rng.next_u32()),
    }
}

/// The limits of lots, price, days, rate and accrued.
const LIMITS: [u32; 5] = [MOST_LOTS, MOST_PRICE, MOST_DAYS, MOST_RATE, MOST_ACCRUED];

/// Each argument in range.
fn in_range(rng: &mut Rng) -> [u32; 5] {
    let [lots, price, days, rate, _] = LIMITS.map(|limit| rng.range(1, limit));
    let rate = if rng.chance(1, 50) { 0 } else { rate };
    [lots, price, days, rate, accrued_with(rng, price)]
}

/// An accrued amount in range beside a price: 0, the most, or any.
fn accrued_with(rng: &mut Rng, price: u32) -> u32 {
    let most = MOST_ACCRUED.min(MOST_PRICE - price);
    match rng.range(0, 7) {
        0 => 0,
        1 => most,
        _ => rng.range(0, most),
    }
}

/// Arguments whose charge is whole before it is rounded, or nearly so.
fn whole(rng: &mut Rng) -> [u32; 5] {
    let lots = 10_000 * rng.range(1, MOST_LOTS / 10_000);
    let price = 2 * rng.range(1, MOST_PRICE / 2) - rng.range(0, 1);
    let rate = 365 * rng.range(1, MOST_RATE / 365);
    let accrued = accrued_with(rng, price);
    [lots - rng.range(0, 1), price, rng.range(1, MOST_DAYS), rate, accrued]
}

/// A number near 0, near the limit or near the end of 32 bits.
fn near_edge(rng: &mut Rng, limit: u32) -> u32 {
    let near = rng.range(0, 3);
    match rng.range(0, 4) {
        0 => near,
        1 | 2 => limit - near,
        3 => limit + near,
        _ => u32::MAX - near,
    }
}

/// Arguments in range but for one, which is near an edge or wild.
fn one_out_of_place(rng: &mut Rng) -> [u32; 5] {
    let mut arguments = in_range(rng);
    let at = rng.range(0, 4) as usize;
    arguments[at] = if rng.chance(1, 2) { near_edge(rng, LIMITS[at]) } else { rng.next_u32() };
    arguments
}
