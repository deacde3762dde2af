//! `markets`: every small market, each once, by the library and by the second engine.
//!
//! All lists for 0 to 6 accounts and nets up to 5, with outputs about the least length: the number, every
//! place of the output and the places around it. Then every market of up to five accounts with every list
//! of deliveries goes through a book in both engines, sixteen to a book, one to an issue; the fail entries
//! of the ledger are counted, and for every list of delivered lots the library's counts must be these.
//! Last the second engine's own counts, for some lists. `--replay` takes `list`, accounts, most and
//! places, or `fails`, accounts, most and delivered lots.

use reference::book::{place, Book, ISSUES};
use reference::markets::{self as model, COUNTS, PLACES};
use settlement_day::{markets as proved, Refusal};
use std::collections::{BTreeMap, BTreeSet};
use std::fmt;
use std::process::ExitCode;
use tests::case::Case;
use tests::options::{number, Options};
use tests::report::Mismatch;
use tests::rng::Rng;
use tests::steps::Call;

/// The lists of delivered lots that the second engine counts by itself.
const DEFAULT_CASES: u64 = 40;
/// The most accounts, and the most of a net.
const ACCOUNTS: u32 = 5;
const MOST: u32 = 4;
/// The numbers that can be answered, by the papers; 0 is done.
const NUMBERS: [u32; 3] = [0, 1, 7];
/// Places on either side of the lent output, which nothing may write.
const AROUND: usize = 4;
/// The words of an output of the book.
const OUT: usize = 4_096;

/// A list that is asked for.
#[derive(Clone, Debug)]
enum Asked {
    List { accounts: u32, most: u32, places: usize },
    Fails { accounts: u32, most: u32, delivered: Vec<u32> },
}

impl fmt::Display for Asked {
    /// The words that `--replay` takes.
    fn fmt(&self, text: &mut fmt::Formatter) -> fmt::Result {
        match self {
            Asked::List { accounts, most, places } => {
                write!(text, "list {accounts} {most} {places}")
            }
            Asked::Fails { accounts, most, delivered } => {
                write!(text, "fails {accounts} {most}")?;
                delivered.iter().try_for_each(|lots| write!(text, " {lots}"))
            }
        }
    }
}

/// A lent output between places that tell their numbers apart.
fn lent(places: usize) -> Vec<i32> {
    (0..places + 2 * AROUND).map(|at| 1_000_000 + at as i32).collect()
}

/// Who lists: the library or the second engine.
type Lister = fn(u32, u32, &mut [i32]) -> Result<usize, u32>;

/// The library's list, or the refusal's number.
fn list(accounts: u32, most: u32, output: &mut [i32]) -> Result<usize, u32> {
    proved::list(accounts, most, output).map_err(Refusal::number)
}

/// The library's counts, or the refusal's number.
fn fails(accounts: u32, most: u32, delivered: &[u32]) -> Result<[u32; COUNTS], u32> {
    proved::fails(accounts, most, delivered).map_err(Refusal::number)
}

/// What a lister answers, with every place of the output and around it.
fn listed(
    lister: Lister,
    accounts: u32,
    most: u32,
    places: usize,
) -> (Result<usize, u32>, Vec<i32>) {
    let mut output = lent(places);
    let answer = lister(accounts, most, &mut output[AROUND..AROUND + places]);
    (answer, output)
}

impl Asked {
    /// Puts the question to both; gives the number.
    fn compare(&self) -> Result<u32, Mismatch> {
        match self {
            Asked::List { accounts, most, places } => {
                let expected = listed(model::list, *accounts, *most, *places);
                let answer = expected.0;
                Mismatch::of(self, expected, listed(list, *accounts, *most, *places))?;
                Ok(answer.err().unwrap_or(0))
            }
            Asked::Fails { accounts, most, delivered } => {
                let expected = model::fails(*accounts, *most, delivered);
                Mismatch::of(self, expected, fails(*accounts, *most, delivered))?;
                Ok(expected.err().unwrap_or(0))
            }
        }
    }

    /// Reads a question from the words after `--replay`.
    fn parse(words: Vec<String>) -> Result<Asked, String> {
        let mut words = words.into_iter();
        let name = words.next().unwrap_or_default();
        let accounts = number("the accounts", words.next())?;
        let most = number("the most of a net", words.next())?;
        match name.as_str() {
            "list" => {
                Ok(Asked::List { accounts, most, places: number("the places", words.next())? })
            }
            "fails" => {
                let delivered: Result<Vec<u32>, String> =
                    words.map(|word| number("delivered lots", Some(word))).collect();
                Ok(Asked::Fails { accounts, most, delivered: delivered? })
            }
            _ => Err(format!("there are list and fails, not {name:?}")),
        }
    }
}

/// Every list of up to six accounts with nets up to 5, and numbers far away, for outputs about the least
/// length; how many there are.
fn lists(met: &mut BTreeSet<u32>) -> Result<u64, Mismatch> {
    let mut cases = 0;
    for accounts in (0..=ACCOUNTS + 1).chain([64, u32::MAX]) {
        for most in (0..=MOST + 1).chain([100_000, u32::MAX]) {
            for places in [0, PLACES - 1, PLACES, PLACES + 7] {
                met.insert(Asked::List { accounts, most, places }.compare()?);
                cases += 1;
            }
        }
    }
    Ok(cases)
}

/// All lists of lots in which each is at most its bound.
fn lots_up_to(bounds: &[u32]) -> Vec<Vec<u32>> {
    let mut lists = vec![vec![]];
    for &bound in bounds {
        lists = lists
            .iter()
            .flat_map(|list| (0..=bound).map(move |lots| [&list[..], &[lots]].concat()))
            .collect();
    }
    lists
}

/// A market and the lots that its accounts deliver.
struct Day {
    nets: Vec<i32>,
    delivered: Vec<u32>,
}

/// Every market of so many accounts, as the library lists them, with every list of deliveries.
fn days(accounts: u32) -> Result<Vec<Day>, String> {
    let markets = proved::all(accounts, MOST).map_err(|refusal| refusal.to_string())?;
    let with_deliveries = |nets: &Vec<i32>| -> Vec<Day> {
        let owed: Vec<u32> = nets.iter().map(|&net| net.min(0).unsigned_abs()).collect();
        let days = lots_up_to(&owed).into_iter();
        days.map(|delivered| Day { nets: nets.clone(), delivered }).collect()
    };
    Ok(markets.iter().flat_map(with_deliveries).collect())
}

/// Up to sixteen days in the issues of one book, through close, deliver and cutoff in both engines: the
/// fail entries of each, and how many answers were compared.
fn entries_of(days: &[Day]) -> Result<(Vec<usize>, u64), Mismatch> {
    let mut book = Book::fresh();
    for (issue, day) in days.iter().enumerate() {
        for (account, &net) in day.nets.iter().enumerate() {
            book.nets[place(issue, account)] = net;
        }
    }
    let mut case = Case::of(book);
    case.expect(Call::Close, 0)?;
    for (issue, day) in (0..).zip(days) {
        for (account, &lots) in (0..).zip(&day.delivered) {
            if lots > 0 {
                case.expect(Call::Deliver { issue, account, lots, out: OUT }, 0)?;
            }
        }
    }
    case.expect(Call::Cutoff { out: OUT }, 0)?;
    let mut entries = vec![0; days.len()];
    for entry in case.book().ledger() {
        entries[usize::from(entry.issue)] += 1;
    }
    Ok((entries, case.engines.compared))
}

/// The markets by their fail entries, for the most of a net and the delivered lots.
type Counts = BTreeMap<(u32, Vec<u32>), [u32; COUNTS]>;

/// The counts of all markets of so many accounts, as the books of both engines give them.
fn counts_of_books(accounts: u32) -> Result<(Counts, u64, u64), String> {
    let days = days(accounts)?;
    let mut counts = Counts::new();
    let mut compared = 0;
    for book in days.chunks(ISSUES) {
        let (entries, answers) = entries_of(book).map_err(|mismatch| mismatch.to_string())?;
        compared += answers;
        for (day, entries) in book.iter().zip(entries) {
            let largest = day.nets.iter().map(|net| net.unsigned_abs()).max().unwrap_or(0);
            for most in largest..=MOST {
                let key = (most, day.delivered.clone());
                counts.entry(key).or_default()[entries] += 1;
            }
        }
    }
    Ok((counts, days.len() as u64, compared))
}

/// The library's counts for every list of delivered lots of at most one lot more than a net can be must
/// be those of the books, five zeros where there is none; how many lists there are.
fn counts_agree(accounts: u32, counts: &Counts) -> Result<u64, Mismatch> {
    let mut lists = 0;
    for most in 0..=MOST {
        for delivered in lots_up_to(&vec![most + 1; accounts as usize]) {
            let asked = Asked::Fails { accounts, most, delivered: delivered.clone() };
            let books = counts.get(&(most, delivered.clone())).copied().unwrap_or_default();
            Mismatch::of(&asked, Ok(books), fails(accounts, most, &delivered))?;
            lists += 1;
        }
    }
    Ok(lists)
}

/// The counts at the edges of 7.
fn edges(met: &mut BTreeSet<u32>) -> Result<u64, Mismatch> {
    let mut cases = 0;
    for accounts in (0..=ACCOUNTS + 1).chain([64, u32::MAX]) {
        for most in [0, 1, MOST, MOST + 1, u32::MAX] {
            for length in 0..=ACCOUNTS as usize + 2 {
                for lots in [0, 1, u32::MAX] {
                    // the second engine takes long for five accounts
                    if most <= 1 || accounts != ACCOUNTS || length != ACCOUNTS as usize {
                        let delivered = vec![lots; length];
                        met.insert(Asked::Fails { accounts, most, delivered }.compare()?);
                        cases += 1;
                    }
                }
            }
        }
    }
    Ok(cases)
}

/// A list of delivered lots for the second engine's own counts.
fn random_list(rng: &mut Rng) -> Asked {
    let accounts = rng.range(0, ACCOUNTS);
    let most = rng.range(0, MOST);
    let delivered =
        (0..accounts).map(|_| if rng.chance(1, 2) { 0 } else { rng.range(0, most) }).collect();
    Asked::Fails { accounts, most, delivered }
}

/// Runs what the command line asks for; the last line.
fn run(options: &Options) -> Result<String, String> {
    let told = |mismatch: Mismatch| format!("{mismatch}\nseed {}", options.seed);
    if let Some(words) = &options.replay {
        let asked = Asked::parse(words.clone())?;
        let number = asked.compare().map_err(told)?;
        return Ok(format!("markets: 1 case agrees: number {number}"));
    }
    let mut met = BTreeSet::new();
    let mut asked = lists(&mut met).map_err(told)? + edges(&mut met).map_err(told)?;
    if let Some(number) = NUMBERS.into_iter().find(|number| !met.contains(number)) {
        return Err(format!("never met: answer {number}"));
    }
    let (mut days, mut answers) = (0, 0);
    for accounts in 0..=ACCOUNTS {
        let (counts, gone, compared) = counts_of_books(accounts)?;
        days += gone;
        answers += compared;
        asked += counts_agree(accounts, &counts).map_err(told)?;
    }
    eprintln!("{days} days of small markets went through both engines, {answers} answers agree");
    for at in 0..options.cases {
        random_list(&mut Rng::of_case(options.seed, at)).compare().map_err(told)?;
    }
    asked += options.cases;
    Ok(format!(
        "markets: {asked} lists and counts agree, {days} days and {answers} answers of books"
    ))
}

fn main() -> ExitCode {
    match Options::of_command_line(DEFAULT_CASES, &[]).and_then(|options| run(&options)) {
        Ok(line) => {
            println!("{line}");
            ExitCode::SUCCESS
        }
        Err(error) => {
            eprintln!("markets: {error}");
            ExitCode::FAILURE
        }
    }
}
