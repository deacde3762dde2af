//! `trust`: the shares of a fail inside a trust account, by the library and by the second engine.
//!
//! Every market of up to three small reports with every draw and every fail; every question at its
//! edge, 'yes' and 'no', in every combination; columns of other lengths; draws of many reports, with
//! a number missing or twice where the library's windows of marks meet, and of a million, which have
//! to be answered within a time; then random cases. The number, every place of the output and the
//! words around it are compared. `--replay` takes the fail, the failing account, the output's places,
//! the number of reports, of each report its sub-account, counterparty, lots and earlier fail, and
//! then the draw.

use reference::trust::{self as model, Report, LAST_SUB_ACCOUNT, MOST_REPORTS};
use settlement_day::trust::{self as proved, Reports};
use settlement_day::Refusal;
use std::collections::BTreeSet;
use std::fmt;
use std::process::ExitCode;
use std::time::{Duration, Instant};
use tests::options::{number, Options};
use tests::report::{progress, Mismatch};
use tests::rng::Rng;

const DEFAULT_CASES: u64 = 300_000;
const MOST_LOTS: i32 = 20_000_000;
/// The numbers that can be answered, by the papers; 0 is done.
const NUMBERS: [u32; 7] = [0, 1, 5, 7, 21, 22, 23];
/// Words on either side of the lent output, which nothing may write.
const AROUND: usize = 4;
/// The numbers that the library marks off in one window.
const WINDOW: u32 = 65_536;
/// The reports of a long draw, and the most time that its answer may take: windows need some
/// milliseconds, a search of the draw for each number some minutes.
const LONG: u32 = 1_000_000;
const MOST_TIME: Duration = Duration::from_secs(2);

/// One fail to be shared.
#[derive(Clone, Debug)]
struct Case {
    fail: u32,
    failing: u32,
    places: usize,
    reports: Vec<Report>,
    draw: Vec<u32>,
}

impl fmt::Display for Case {
    /// The words that `--replay` takes.
    fn fmt(&self, text: &mut fmt::Formatter) -> fmt::Result {
        write!(text, "{} {} {} {}", self.fail, self.failing, self.places, self.reports.len())?;
        for report in &self.reports {
            let Report { sub_account, counterparty, lots, earlier_fail } = report;
            write!(text, " {sub_account} {counterparty} {lots} {}", u8::from(*earlier_fail))?;
        }
        self.draw.iter().try_for_each(|place| write!(text, " {place}"))
    }
}

/// The columns of reports.
struct Columns {
    sub_accounts: Vec<u32>,
    counterparties: Vec<u32>,
    lots: Vec<i32>,
    earlier: Vec<u8>,
}

impl Columns {
    /// Any number but 0 is an earlier fail.
    fn of(reports: &[Report]) -> Columns {
        let earlier = |(at, report): (usize, &Report)| match report.earlier_fail {
            true => 1 + (at % 255) as u8,
            false => 0,
        };
        Columns {
            sub_accounts: reports.iter().map(|report| report.sub_account).collect(),
            counterparties: reports.iter().map(|report| report.counterparty).collect(),
            lots: reports.iter().map(|report| report.lots).collect(),
            earlier: reports.iter().enumerate().map(earlier).collect(),
        }
    }

    fn lent(&self) -> Reports<'_> {
        Reports {
            sub_accounts: &self.sub_accounts,
            counterparties: &self.counterparties,
            lots: &self.lots,
            earlier: &self.earlier,
        }
    }
}

/// Words that tell their places apart.
fn marked(length: usize) -> Vec<u32> {
    (0..length as u32).map(|at| 0xf000_0000 | at).collect()
}

impl Case {
    /// The library's number and words, those around the output too.
    fn library(&self, columns: &Columns) -> (u32, Vec<u32>) {
        let mut words = marked(self.places + 2 * AROUND);
        let output = &mut words[AROUND..AROUND + self.places];
        let answer = proved::shares(&columns.lent(), &self.draw, self.fail, self.failing, output);
        (answer.err().map_or(0, Refusal::number), words)
    }

    /// The second engine's.
    fn model(&self) -> (u32, Vec<u32>) {
        let mut words = marked(self.places + 2 * AROUND);
        let output = &mut words[AROUND..AROUND + self.places];
        let number = model::shares(&self.reports, &self.draw, self.fail, self.failing, output);
        (number, words)
    }

    /// Puts the case to both; gives the number.
    fn compare(&self) -> Result<u32, Mismatch> {
        let expected = self.model();
        let number = expected.0;
        Mismatch::of(self, expected, self.library(&Columns::of(&self.reports)))?;
        Ok(number)
    }

    /// Puts the case to the library with columns of other lengths; it must answer this number and
    /// write nothing.
    fn expect(&self, columns: &Columns, number: u32) -> Result<(), Mismatch> {
        let untouched = marked(self.places + 2 * AROUND);
        Mismatch::of(self, (number, untouched), self.library(columns))
    }

    /// Reads a case from the words after `--replay`.
    fn parse(words: Vec<String>) -> Result<Case, String> {
        let mut words = words.into_iter();
        let fail = number("the fail", words.next())?;
        let failing = number("the failing account", words.next())?;
        let places = number("the places", words.next())?;
        let count: usize = number("the number of reports", words.next())?;
        let mut reports = Vec::new();
        for _ in 0..count {
            reports.push(Report {
                sub_account: number("a sub-account", words.next())?,
                counterparty: number("a counterparty", words.next())?,
                lots: number("lots", words.next())?,
                earlier_fail: number::<u8>("an earlier fail", words.next())? != 0,
            });
        }
        let draw =
            words.map(|word| number("a report number", Some(word))).collect::<Result<_, _>>();
        Ok(Case { fail, failing, places, reports, draw: draw? })
    }
}

/// All orders of the numbers below n.
fn orders(n: u32) -> Vec<Vec<u32>> {
    let mut orders = vec![vec![]];
    for number in 0..n {
        let with = |order: &Vec<u32>| {
            let put = |at| [&order[..at], &[number], &order[at..]].concat();
            (0..=order.len()).map(put).collect::<Vec<_>>()
        };
        orders = orders.iter().flat_map(with).collect();
    }
    orders
}

/// All lists of so many of these items.
fn lists<T: Clone>(items: &[T], length: u32) -> Vec<Vec<T>> {
    let mut lists = vec![vec![]];
    for _ in 0..length {
        let with = |list: &Vec<T>| {
            items.iter().map(|item| [&list[..], std::slice::from_ref(item)].concat()).collect()
        };
        lists = lists.iter().flat_map::<Vec<_>, _>(with).collect();
    }
    lists
}

/// The reports of the small markets: two sub-accounts, the failing account and another, lots from
/// −2 to 2, with an earlier fail and without.
fn small_reports() -> Vec<Report> {
    let mut reports = Vec::new();
    for lots in -2..=2 {
        for bits in 0..8 {
            let (sub_account, counterparty) = (bits & 1, 4 + (bits >> 1 & 1));
            reports.push(Report { sub_account, counterparty, lots, earlier_fail: bits > 3 });
        }
    }
    reports
}

/// Every market of up to three small reports, with every draw and every fail that can be allotted
/// and one more; how many there are.
fn small_markets(met: &mut BTreeSet<u32>) -> Result<u64, Mismatch> {
    let mut cases = 0;
    for length in 0..=3 {
        let draws = orders(length);
        for reports in lists(&small_reports(), length) {
            let received: i32 = reports.iter().map(|report| report.lots.max(0)).sum();
            for draw in &draws {
                for fail in 1..=received as u32 + 1 {
                    let (reports, draw) = (reports.clone(), draw.clone());
                    let case = Case { fail, failing: 4, places: MOST_REPORTS, reports, draw };
                    met.insert(case.compare()?);
                    cases += 1;
                }
            }
        }
    }
    Ok(cases)
}

/// A case that is accepted: 256 reports of sub-accounts 0 to 31.
fn large() -> Case {
    let report = |at: u32| Report {
        sub_account: at % (LAST_SUB_ACCOUNT + 1),
        counterparty: at * 37 % 64,
        lots: if at % 5 == 0 { -MOST_LOTS } else { MOST_LOTS },
        earlier_fail: at % 11 == 0,
    };
    let most = MOST_REPORTS as u32;
    Case {
        fail: 20_000_000,
        failing: 63,
        places: MOST_REPORTS,
        reports: (0..most).map(report).collect(),
        draw: (0..most).map(|at| at * 101 % most).collect(),
    }
}

/// What is done to a case that is accepted.
type Edge = fn(&mut Case);

/// What spoils it: for each question a number just past its edge.
const EDGES: [Edge; 16] = [
    |case| case.places = MOST_REPORTS - 1,
    |case| case.failing = 64,
    |case| case.reports[255].counterparty = 64,
    |case| case.reports[0].counterparty = u32::MAX,
    |case| case.fail = 0,
    |case| case.fail = 20_000_001,
    |case| case.reports[0].lots = -MOST_LOTS - 1,
    |case| case.reports[255].lots = MOST_LOTS + 1,
    |case| case.reports[3].lots = i32::MIN,
    |case| case.draw[200] = case.draw[100],
    |case| case.draw[0] = MOST_REPORTS as u32,
    |case| case.draw.truncate(MOST_REPORTS - 1),
    |case| case.draw.push(0),
    one_report_more,
    |case| case.reports[7].sub_account = LAST_SUB_ACCOUNT + 1,
    |case| case.reports.iter_mut().for_each(|report| report.lots = -report.lots.saturating_abs()),
];

/// 257 reports, each drawn just once where those before were.
fn one_report_more(case: &mut Case) {
    case.draw.push(case.reports.len() as u32);
    case.reports.push(Report { sub_account: 0, counterparty: 0, lots: 1, earlier_fail: false });
}

/// Every edge alone and every two of them, in both orders; how many there are.
fn edges(met: &mut BTreeSet<u32>) -> Result<u64, Mismatch> {
    let mut cases = 1;
    met.insert(large().compare()?);
    for one in EDGES {
        for other in EDGES {
            let mut case = large();
            one(&mut case);
            other(&mut case);
            met.insert(case.compare()?);
            cases += 1;
        }
    }
    Ok(cases)
}

/// Columns of other lengths: refused by 21, after 1, 5 and 7 and before 22; nothing is written.
fn lengths() -> Result<u64, Mismatch> {
    let spoil: [fn(&mut Columns); 6] = [
        |columns| columns.sub_accounts.truncate(255),
        |columns| columns.counterparties.truncate(255),
        |columns| columns.lots.truncate(255),
        |columns| columns.earlier.truncate(255),
        |columns| columns.counterparties.push(0),
        |columns| columns.earlier.clear(),
    ];
    let others: [(Edge, u32); 6] = [
        (|_| (), 21),
        (|case| case.places = 255, 1),
        (|case| case.reports[1].counterparty = 64, 5),
        (|case| case.reports[1].lots = MOST_LOTS + 1, 7),
        (|case| case.reports[1].sub_account = 32, 21),
        (one_report_more, 21),
    ];
    for spoil in spoil {
        for (other, number) in others {
            let mut case = large();
            other(&mut case);
            let mut columns = Columns::of(&case.reports);
            spoil(&mut columns);
            case.expect(&columns, number)?;
        }
    }
    Ok((spoil.len() * others.len()) as u64)
}

/// The numbers below n in a random order.
fn random_draw(rng: &mut Rng, n: u32) -> Vec<u32> {
    let mut draw: Vec<u32> = (0..n).collect();
    for at in (1..draw.len()).rev() {
        draw.swap(at, rng.range(0, at as u32) as usize);
    }
    draw
}

/// A draw of many reports of one lot each, put to both; gives the number and how long the library
/// took. The case is not told: it has too many words.
fn many(reports: u32, draw: Vec<u32>) -> Result<(u32, Duration), String> {
    let report = Report { sub_account: 0, counterparty: 0, lots: 1, earlier_fail: false };
    let reports = vec![report; reports as usize];
    let case = Case { fail: 1, failing: 0, places: MOST_REPORTS, reports, draw };
    let columns = Columns::of(&case.reports);
    let start = Instant::now();
    let (number, words) = case.library(&columns);
    let time = start.elapsed();
    let expected = case.model();
    let told = format!("a draw of {}: answered {number} after {time:.1?}", case.draw.len());
    if (number, &words) != (expected.0, &expected.1) {
        return Err(format!("{told}, and {} by the second engine", expected.0));
    }
    if time > MOST_TIME {
        return Err(format!("{told}, more than {MOST_TIME:?}"));
    }
    Ok((number, time))
}

/// A list with another number in place of one of its own.
fn with_instead(draw: &[u32], missing: u32, twice: u32) -> Vec<u32> {
    draw.iter().map(|&number| if number == missing { twice } else { number }).collect()
}

/// Draws of as many reports as one or two windows have numbers, of one fewer and of one more: right,
/// and with a number twice, in one window or in two; how many there are.
fn windows(rng: &mut Rng) -> Result<u64, String> {
    let mut cases = 0;
    for reports in [1, 2].into_iter().flat_map(|n| n * WINDOW - 1..=n * WINDOW + 1) {
        let (first, last) = (0, reports - 1);
        let right = random_draw(rng, reports);
        let mut numbers = vec![many(reports, right.clone())?.0];
        for (missing, twice) in [
            (first, 1),
            (first, last),
            (last, first),
            (last - 1, last),
            (63, 64),
            (last / 2, last / 2 + 64),
        ] {
            numbers.push(many(reports, with_instead(&right, missing, twice))?.0);
        }
        if numbers != [22, 21, 21, 21, 21, 21, 21] {
            return Err(format!("draws of {reports}: answered {numbers:?}"));
        }
        cases += numbers.len() as u64;
    }
    Ok(cases)
}

/// A draw of a million reports, right and with its last number twice, is answered in time.
fn long_draws(rng: &mut Rng) -> Result<u64, String> {
    let right = random_draw(rng, LONG);
    let twice = with_instead(&right, LONG - 2, LONG - 1);
    for (expected, draw) in [(22, (0..LONG).collect()), (22, right), (21, twice)] {
        let (number, time) = many(LONG, draw)?;
        if number != expected {
            return Err(format!("a draw of {LONG}: answered {number}, expected {expected}"));
        }
        eprintln!("a draw of {LONG}: answered {number} after {time:.1?}");
    }
    Ok(3)
}

impl Case {
    /// A random case: few or many reports, few or many sub-accounts, a fail that is often the whole
    /// of what can be allotted or near it, and now and then one edge that is passed.
    fn random(rng: &mut Rng) -> Case {
        let n = if rng.chance(1, 20) { rng.range(0, 256) } else { rng.range(1, 24) };
        let subs = *rng.pick(&[0, 1, 3, LAST_SUB_ACCOUNT]);
        let parties = *rng.pick(&[0, 1, 3, 63]);
        let most = *rng.pick(&[3, 1_000, MOST_LOTS]) as u32;
        let down = rng.range(0, 4);
        let reports: Vec<Report> = (0..n)
            .map(|_| {
                let lots = rng.range(0, most) as i32;
                Report {
                    sub_account: rng.range(0, subs),
                    counterparty: rng.range(0, parties),
                    lots: if rng.chance(down, 8) { -lots } else { lots },
                    earlier_fail: rng.chance(1, 8),
                }
            })
            .collect();
        let received: u64 = reports.iter().map(|report| report.lots.max(0) as u64).sum();
        let high = received.clamp(1, MOST_LOTS as u64) as u32;
        let fail =
            if rng.chance(1, 3) { high - rng.range(0, high / 4) } else { rng.range(1, high) };
        let failing = rng.range(0, parties);
        let places = MOST_REPORTS + rng.range(0, 9) as usize;
        let mut case = Case { fail, failing, places, reports, draw: random_draw(rng, n) };
        if rng.chance(1, 6) {
            case.spoil(rng);
        }
        case
    }

    /// Changes one number of the case, most often past an edge.
    fn spoil(&mut self, rng: &mut Rng) {
        let at = rng.range(0, 255) as usize % self.reports.len().max(1);
        let drawn = rng.range(0, 300);
        match (rng.range(0, 7), self.reports.get_mut(at)) {
            (0, Some(report)) => report.counterparty = rng.range(60, 68),
            (1, Some(report)) => report.lots = *rng.pick(&[i32::MIN, i32::MAX, MOST_LOTS + 1]),
            (2, Some(report)) => report.sub_account = rng.range(28, 40),
            (3, Some(_)) => self.draw[at] = drawn,
            (4, _) => self.draw.push(drawn),
            (5, _) => self.places = rng.range(250, 260) as usize,
            (6, _) => self.fail = rng.next_u32(),
            _ => self.failing = rng.range(60, 68),
        }
    }
}

/// Fails where a number was never answered.
fn every_number(cases: &str, met: &BTreeSet<u32>) -> Result<(), String> {
    match NUMBERS.into_iter().find(|number| !met.contains(number)) {
        Some(number) => Err(format!("{cases} never met: answer {number}")),
        None => Ok(()),
    }
}

/// Runs the cases that the command line asks for; the last line.
fn run(options: &Options) -> Result<String, String> {
    let told = |mismatch: Mismatch| format!("{mismatch}\nseed {}", options.seed);
    if let Some(words) = &options.replay {
        let case = Case::parse(words.clone())?;
        let number = case.compare().map_err(told)?;
        return Ok(format!("trust: 1 case agrees: number {number}"));
    }
    let mut met = BTreeSet::new();
    let small = small_markets(&mut met).map_err(told)?;
    eprintln!("{small} small markets agree");
    let edges = edges(&mut met).map_err(told)? + lengths().map_err(told)?;
    let rng = &mut Rng::new(options.seed);
    let long = windows(rng)? + long_draws(rng)?;
    every_number("the edges", &met)?;
    met.clear();
    for at in 0..options.cases {
        met.insert(Case::random(&mut Rng::of_case(options.seed, at)).compare().map_err(told)?);
        progress(at + 1, options.cases);
    }
    if options.cases >= DEFAULT_CASES {
        every_number("the random cases", &met)?;
    }
    let agreed = small + edges + long + options.cases;
    Ok(format!(
        "trust: {agreed} cases agree ({small} small, {edges} of edges, {long} long, {} random)",
        options.cases
    ))
}

fn main() -> ExitCode {
    match Options::of_command_line(DEFAULT_CASES, &[]).and_then(|options| run(&options)) {
        Ok(line) => {
            println!("{line}");
            ExitCode::SUCCESS
        }
        Err(error) => {
            eprintln!("trust: {error}");
            ExitCode::FAILURE
        }
    }
}
