//! `entries`: one entry met in a slice of entry structs, by the library and by the second engine.
//!
//! Every combination of a few lots, lengths and places, then random cases. `--replay` takes the
//! place, the lots asked and then the lots of the entries.

use reference::book;
use settlement_day::{entries, Entry};
use std::fmt;
use std::process::ExitCode;
use tests::convert::library_entry;
use tests::options::{number, Options};
use tests::report::{progress, Mismatch};
use tests::rng::Rng;

const DEFAULT_CASES: u64 = 500_000;
const EDGES: [u32; 6] = [0, 1, 2, 20_000_000, u32::MAX - 1, u32::MAX];

/// One entry of a slice to be met.
struct Case {
    at: usize,
    asked: u32,
    lots: Vec<u32>,
}

impl fmt::Display for Case {
    /// The words that `--replay` takes.
    fn fmt(&self, text: &mut fmt::Formatter) -> fmt::Result {
        write!(text, "{} {}", self.at, self.asked)?;
        self.lots.iter().try_for_each(|lots| write!(text, " {lots}"))
    }
}

impl Case {
    /// Entries with these lots and other numbers that tell them apart.
    fn entries(&self) -> Vec<book::Entry> {
        let entry = |(at, &lots): (usize, &u32)| book::Entry {
            issue: at as u8,
            from: at as u8 ^ 0x55,
            to: at as u8 ^ 0xaa,
            lots,
            day: at as u16 * 257,
        };
        self.lots.iter().enumerate().map(entry).collect()
    }

    /// Puts the case to both: the answer and every entry are compared.
    fn compare(&self) -> Result<(), Mismatch> {
        let mut model = self.entries();
        let mut lent: Vec<Entry> = model.iter().copied().map(library_entry).collect();
        let expected = model.get_mut(self.at).map_or(0, |entry| entry.meet(self.asked));
        let met = entries::meet(&mut lent, self.at, self.asked);
        let after: Vec<Entry> = model.into_iter().map(library_entry).collect();
        Mismatch::of(self, (expected, after), (met, lent))
    }

    /// A random case; places past the end and lots at the edges are frequent.
    fn random(rng: &mut Rng) -> Case {
        let any = |rng: &mut Rng| match rng.chance(1, 3) {
            true => *rng.pick(&EDGES),
            false => rng.range(0, 20_000_000),
        };
        let lots = (0..rng.range(0, 9)).map(|_| any(rng)).collect();
        Case { at: rng.range(0, 10) as usize, asked: any(rng), lots }
    }

    /// Reads a case from the words after `--replay`.
    fn parse(words: Vec<String>) -> Result<Case, String> {
        let mut words = words.into_iter();
        let at = number("the place", words.next())?;
        let asked = number("the lots asked", words.next())?;
        let lots = words.map(|word| number("lots", Some(word))).collect::<Result<_, _>>()?;
        Ok(Case { at, asked, lots })
    }
}

/// Every slice of up to two entries with lots at the edges, every place and one past, every ask.
fn edges() -> Vec<Case> {
    let mut slices = vec![vec![]];
    slices.extend(EDGES.iter().map(|&lots| vec![lots]));
    slices.extend(EDGES.iter().flat_map(|&one| EDGES.iter().map(move |&two| vec![one, two])));
    let mut cases = Vec::new();
    for lots in slices {
        for at in [0, 1, 2, 1 << 32, usize::MAX] {
            cases.extend(EDGES.iter().map(|&asked| Case { at, asked, lots: lots.clone() }));
        }
    }
    cases
}

/// Runs the cases that the command line asks for; how many agreed.
fn run(options: &Options) -> Result<u64, String> {
    let told = |mismatch: Mismatch| format!("{mismatch}seed {}", options.seed);
    if let Some(words) = &options.replay {
        return Case::parse(words.clone())?.compare().map(|()| 1).map_err(told);
    }
    let edges = edges();
    edges.iter().try_for_each(Case::compare).map_err(told)?;
    for case in 0..options.cases {
        Case::random(&mut Rng::of_case(options.seed, case)).compare().map_err(told)?;
        progress(case + 1, options.cases);
    }
    Ok(edges.len() as u64 + options.cases)
}

fn main() -> ExitCode {
    match Options::of_command_line(DEFAULT_CASES, &[]).and_then(|options| run(&options)) {
        Ok(cases) => {
            println!("entries: {cases} cases agree");
            ExitCode::SUCCESS
        }
        Err(error) => {
            eprintln!("entries: {error}");
            ExitCode::FAILURE
        }
    }
}
