//! `funds`: base contributions and shares of the funds for a default, by the library and by the second
//! engine.
//!
//! The annex of document 002 (`tests/funds-annex.txt`), cases 1 to 4 from its printed bases, against
//! its printed shares; every default of up to three small participants; every question at its edge,
//! alone and with every other; then random defaults. The number, every place of the output and the
//! words around it are compared. `--replay` takes what is called (`bases`, `shares` or `funds`), the
//! factor in tenths, the funds, the number of participants, their averages, and for `shares` bases.

use reference::funds::{self as model, Amounts, MOST_AMOUNT, MOST_PARTICIPANTS};
use settlement_day::{funds as proved, Refusal};
use std::collections::BTreeSet;
use std::fmt;
use std::process::ExitCode;
use tests::options::{number, Options};
use tests::report::{progress, Mismatch};
use tests::rng::Rng;

const DEFAULT_CASES: u64 = 30_000;
/// The numbers that can be answered, by the papers; 0 is done.
const NUMBERS: [u32; 3] = [0, 24, 25];
/// Words on either side of the lent output, which nothing may write.
const AROUND: usize = 4;
/// What stands in a place before a call.
const LENT: u64 = 0xf000_0000_0000_0000;
/// The annex, and the funds of its cases, each its column's sum.
const ANNEX: &str = include_str!("../../funds-annex.txt");
const ANNEX_FUNDS: [u64; 4] = [499, 3_790, 20_400, 37_400];

/// What is called.
#[derive(Clone, Copy, Debug, PartialEq, Eq)]
enum Call {
    Bases,
    Shares,
    Funds,
}

const CALLS: [(Call, &str); 3] =
    [(Call::Bases, "bases"), (Call::Shares, "shares"), (Call::Funds, "funds")];

/// One default. A call that does not use the factor, the funds or the bases does not look at them.
#[derive(Clone, Debug)]
struct Case {
    call: Call,
    tenths: u64,
    funds: u64,
    averages: Vec<u64>,
    bases: Vec<u64>,
}

impl fmt::Display for Case {
    /// The words that `--replay` takes.
    fn fmt(&self, text: &mut fmt::Formatter) -> fmt::Result {
        let name =
            CALLS.into_iter().find(|(call, _)| *call == self.call).map_or("", |(_, name)| name);
        write!(text, "{name} {} {} {}", self.tenths, self.funds, self.averages.len())?;
        self.averages.iter().chain(&self.bases).try_for_each(|amount| write!(text, " {amount}"))
    }
}

/// The number, the words before the output, the output and the words after it.
type Answer = (u32, [u64; AROUND], Amounts, [u64; AROUND]);

/// An output between words that tell their places apart.
#[repr(C)]
struct Lent {
    before: [u64; AROUND],
    output: Amounts,
    after: [u64; AROUND],
}

impl Lent {
    fn marked() -> Lent {
        let word = |at: usize| LENT | at as u64;
        Lent {
            before: std::array::from_fn(word),
            output: std::array::from_fn(|at| word(AROUND + at)),
            after: std::array::from_fn(|at| word(AROUND + MOST_PARTICIPANTS + at)),
        }
    }

    fn answer(self, number: u32) -> Answer {
        (number, self.before, self.output, self.after)
    }
}

impl Case {
    /// The library's number and words.
    fn library(&self) -> Answer {
        let mut lent = Lent::marked();
        let output = &mut lent.output;
        let answer = match self.call {
            Call::Bases => proved::bases(&self.averages, self.tenths, output),
            Call::Shares => proved::shares(&self.averages, &self.bases, self.funds, output),
            Call::Funds => proved::funds(&self.averages, self.tenths, self.funds, output),
        };
        lent.answer(answer.err().map_or(0, Refusal::number))
    }

    /// The second engine's.
    fn model(&self) -> Answer {
        let mut lent = Lent::marked();
        let answer = match self.call {
            Call::Bases => model::bases(&self.averages, self.tenths),
            Call::Shares => model::shares(&self.averages, &self.bases, self.funds),
            Call::Funds => model::funds(&self.averages, self.tenths, self.funds),
        };
        match answer {
            Ok(amounts) => {
                lent.output = amounts;
                lent.answer(0)
            }
            Err(number) => lent.answer(number),
        }
    }

    /// Puts the case to both; gives the number.
    fn compare(&self) -> Result<u32, Mismatch> {
        let expected = self.model();
        Mismatch::of(self, expected, self.library())?;
        Ok(expected.0)
    }

    /// Reads a case from the words after `--replay`.
    fn parse(words: Vec<String>) -> Result<Case, String> {
        let mut words = words.into_iter();
        let name = words.next().unwrap_or_default();
        let call = CALLS.into_iter().find(|(_, known)| *known == name).map(|(call, _)| call);
        let call =
            call.ok_or_else(|| format!("there are bases, shares and funds, not {name:?}"))?;
        let tenths = number("the factor in tenths", words.next())?;
        let funds = number("the funds", words.next())?;
        let count: usize = number("the number of participants", words.next())?;
        let averages: Result<Vec<u64>, String> =
            (0..count).map(|_| number("an average", words.next())).collect();
        let bases: Result<Vec<u64>, String> =
            words.map(|word| number("a base", Some(word))).collect();
        Ok(Case { call, tenths, funds, averages: averages?, bases: bases? })
    }
}

/// The rows of the annex: printed average, printed base and the printed shares of four cases.
fn annex() -> Result<Vec<[u64; 6]>, String> {
    let row = |line: &str| -> Result<[u64; 6], String> {
        let numbers: Result<Vec<u64>, _> =
            line.split_whitespace().skip(1).map(str::parse).collect();
        let numbers = numbers.map_err(|error| format!("the annex: {line:?}: {error}"))?;
        numbers.try_into().map_err(|_| format!("the annex: {line:?} has not six numbers"))
    };
    ANNEX.lines().filter(|line| !line.starts_with('#')).map(row).collect()
}

/// The annex's cases 1 to 4: from the printed averages and bases, the library's shares are those
/// printed, and so are the second engine's.
fn annex_cases() -> Result<u64, String> {
    let rows = annex()?;
    let column = |at: usize| rows.iter().map(|row| row[at]).collect::<Vec<u64>>();
    for (at, funds) in ANNEX_FUNDS.into_iter().enumerate() {
        let printed = column(2 + at);
        if rows.len() != 35 || printed.iter().sum::<u64>() != funds {
            return Err(format!("the annex's case {} is not of 35 shares of {funds}", at + 1));
        }
        let case =
            Case { call: Call::Shares, tenths: 0, funds, averages: column(0), bases: column(1) };
        let number = case.compare().map_err(|mismatch| mismatch.to_string())?;
        let (_, _, output, _) = case.library();
        if number != 0 || output[..35] != printed[..] {
            return Err(format!("case {} of the annex: {number} {output:?}", at + 1));
        }
    }
    Ok(ANNEX_FUNDS.len() as u64)
}

/// All lists of so many of these items.
fn lists<T: Clone>(items: &[T], length: usize) -> Vec<Vec<T>> {
    let mut lists = vec![vec![]];
    for _ in 0..length {
        let with = |list: &Vec<T>| {
            items.iter().map(|item| [&list[..], std::slice::from_ref(item)].concat()).collect()
        };
        lists = lists.iter().flat_map::<Vec<_>, _>(with).collect();
    }
    lists
}

/// Every default of up to three participants with averages 0 to 2 and bases about the pieces, with
/// funds from none to one too many; and of the same averages with every factor about the pieces. How
/// many there are.
fn small_defaults(met: &mut BTreeSet<u32>) -> Result<u64, Mismatch> {
    const BASES: [u64; 6] = [0, 1, 49, 50, 51, 101];
    let mut cases = 0;
    for length in 0..=3 {
        for averages in lists(&[0, 1, 2], length) {
            for bases in lists(&BASES, length) {
                let together: u64 = bases.iter().sum();
                for funds in 0..=together + 1 {
                    let (averages, bases) = (averages.clone(), bases.clone());
                    let case = Case { call: Call::Shares, tenths: 0, funds, averages, bases };
                    met.insert(case.compare()?);
                    cases += 1;
                }
            }
            for tenths in [0, 1, 249, 250, 251, 499, 500, 501, 999, 1_000] {
                for funds in [0, 1, 49, 50, 51, 99, 100, 149, 150, 200, 201, 301, 1_000] {
                    for call in [Call::Bases, Call::Funds] {
                        let (averages, bases) = (averages.clone(), vec![]);
                        met.insert(Case { call, tenths, funds, averages, bases }.compare()?);
                        cases += 1;
                    }
                }
            }
        }
    }
    Ok(cases)
}

/// A default that is accepted by every call: 64 participants.
fn large(call: Call) -> Case {
    let most = MOST_PARTICIPANTS as u64;
    Case {
        call,
        tenths: 51,
        funds: 20_000,
        averages: (0..most).map(|at| at * 37 % most * 10).collect(),
        bases: (0..most).map(|at| at * 29 % most * 40).collect(),
    }
}

/// What is done to a default that is accepted.
type Edge = fn(&mut Case);

/// Gives the participant this average, if it is there.
fn average(case: &mut Case, participant: usize, amount: u64) {
    if let Some(average) = case.averages.get_mut(participant) {
        *average = amount;
    }
}

/// Each limit at its edge and just past it.
const EDGES: [Edge; 18] = [
    |case| case.averages.push(0),
    |case| case.bases.push(0),
    |case| {
        case.averages.push(0);
        case.bases.push(0);
    },
    |case| case.averages.truncate(63),
    |case| case.bases.truncate(63),
    |case| average(case, 0, MOST_AMOUNT),
    |case| average(case, 63, MOST_AMOUNT + 1),
    |case| average(case, 31, u64::MAX),
    |case| case.tenths = MOST_AMOUNT,
    |case| case.tenths = MOST_AMOUNT + 1,
    |case| case.tenths = 0,
    |case| case.funds = MOST_AMOUNT,
    |case| case.funds = MOST_AMOUNT + 1,
    |case| case.funds = u64::MAX,
    |case| case.funds = case.bases.iter().fold(0, |sum, &base| sum.saturating_add(base)),
    |case| case.funds = case.bases.iter().fold(1, |sum, &base| sum.saturating_add(base)),
    |case| case.bases.iter_mut().for_each(|base| *base = u64::MAX),
    |case| case.bases.iter_mut().for_each(|base| *base = 0),
];

/// Every edge alone and every two of them, in both orders, with each call; how many there are.
fn edges(met: &mut BTreeSet<u32>) -> Result<u64, Mismatch> {
    let mut cases = 0;
    for (call, _) in CALLS {
        met.insert(large(call).compare()?);
        cases += 1;
        for one in EDGES {
            for other in EDGES {
                let mut case = large(call);
                one(&mut case);
                other(&mut case);
                met.insert(case.compare()?);
                cases += 1;
            }
        }
    }
    Ok(cases)
}

impl Case {
    /// A random default; one in six with a number past an edge.
    fn random(rng: &mut Rng) -> Case {
        let call = rng.pick(&CALLS).0;
        let n = rng.range(0, 64);
        let most = *rng.pick(&[3, 100, 5_000, 1_000_000]);
        let averages: Vec<u64> = (0..n).map(|_| u64::from(rng.range(0, most))).collect();
        let piece = *rng.pick(&[1, 50]);
        let high = *rng.pick(&[3, 40, 2_000]);
        let bases: Vec<u64> = (0..n).map(|_| u64::from(rng.range(0, high) * piece)).collect();
        let factor = *rng.pick(&[2, 60, 1_000, 1_000_000]);
        let tenths = u64::from(rng.range(0, factor));
        let together: u64 = match call {
            Call::Shares => bases.iter().sum(),
            _ => model::bases(&averages, tenths).map_or(0, |bases| bases.iter().sum()),
        };
        let high = together.min(*rng.pick(&[500, 20_000, MOST_AMOUNT])) as u32;
        let funds = match rng.range(0, 3) {
            0 => together + u64::from(rng.range(0, 2)),
            1 => u64::from(high - rng.range(0, high / 4)),
            _ => u64::from(rng.range(0, high)),
        };
        let mut case = Case { call, tenths, funds, averages, bases };
        if rng.chance(1, 6) {
            case.spoil(rng);
        }
        case
    }

    /// Changes one number of the case, most often past an edge.
    fn spoil(&mut self, rng: &mut Rng) {
        let any = rng.next_u64();
        let edge = MOST_AMOUNT - 1 + u64::from(rng.range(0, 2));
        let at = rng.range(0, 63) as usize % self.averages.len().max(1);
        match (rng.range(0, 6), self.averages.get_mut(at)) {
            (0, Some(average)) => *average = edge,
            (1, Some(average)) => *average = any,
            (2, Some(_)) => self.bases[at] = any,
            (3, _) => self.tenths = edge,
            (4, _) => self.funds = edge,
            (5, _) => self.bases.push(any),
            _ => self.averages.push(1),
        }
    }
}

/// Fails where a number was never answered.
fn every_number(cases: &str, met: &BTreeSet<u32>) -> Result<(), String> {
    match NUMBERS.into_iter().find(|number| !met.contains(number)) {
        Some(number) => Err(format!("{cases} never met: answer {number}")),
        None => Ok(()),
    }
}

/// Runs the cases that the command line asks for; the last line.
fn run(options: &Options) -> Result<String, String> {
    let told = |mismatch: Mismatch| format!("{mismatch}\nseed {}", options.seed);
    if let Some(words) = &options.replay {
        let case = Case::parse(words.clone())?;
        let number = case.compare().map_err(told)?;
        return Ok(format!("funds: 1 case agrees: number {number}"));
    }
    let annex = annex_cases()?;
    eprintln!("{annex} cases of the annex are as printed");
    let mut met = BTreeSet::new();
    let small = small_defaults(&mut met).map_err(told)?;
    eprintln!("{small} small defaults agree");
    let edges = edges(&mut met).map_err(told)?;
    every_number("the edges", &met)?;
    met.clear();
    for at in 0..options.cases {
        met.insert(Case::random(&mut Rng::of_case(options.seed, at)).compare().map_err(told)?);
        progress(at + 1, options.cases);
    }
    if options.cases >= DEFAULT_CASES {
        every_number("the random cases", &met)?;
    }
    let agreed = annex + small + edges + options.cases;
    Ok(format!(
        "funds: {agreed} cases agree ({annex} of the annex, {small} small, {edges} of edges, {} random)",
        options.cases
    ))
}

fn main() -> ExitCode {
    match Options::of_command_line(DEFAULT_CASES, &[]).and_then(|options| run(&options)) {
        Ok(line) => {
            println!("{line}");
            ExitCode::SUCCESS
        }
        Err(error) => {
            eprintln!("funds: {error}");
            ExitCode::FAILURE
        }
    }
}
