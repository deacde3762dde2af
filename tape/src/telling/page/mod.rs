//! The facts as one page of HTML, for a screen, a phone and paper: an index, a section for each day, in it
//! for each issue the order of units, who handed what when, the fails and what became of them. The page
//! holds all that it needs and no script.

mod account;
pub(crate) mod markup;
mod noting;
mod parts;
mod writing;

use crate::facts::Told;
use crate::input::Stands;
use crate::known::{Dated, Known};
use crate::telling::Only;
use account::Flow;
use parts::{DayPart, Fail};
use settlement_day::Entry;
use std::collections::BTreeMap;

/// The most rows of a page: units, deliveries, fails, charges and what else is shown, some megabytes.
pub const MOST_ROWS: usize = 20_000;

/// A page as it is put together. Every fact is noted, since what becomes of a fail is told later; only
/// what is wanted is shown.
pub struct Page {
    only: Only,
    /// The files that the tape is of.
    files: Vec<String>,
    /// The names and dates that are known at the end.
    known: Known,
    instructions: usize,
    refused: usize,
    days: BTreeMap<u16, DayPart>,
    /// All fails in the order in which they arose, and the places of those that stand in the ledger, in
    /// its order.
    fails: Vec<Fail>,
    standing: Vec<usize>,
    /// How many entries of the ledger the roll that is at work has charged.
    charged: usize,
    /// Of the one account that is wanted, what it is told, by day and issue.
    flows: BTreeMap<(u16, u32), Flow>,
    end: End,
    rows: usize,
    /// Where there are too many rows, the day on which.
    too_long: Option<Dated>,
}

/// The book at the end, and where reading ended, if it did before the tape.
#[derive(Default)]
struct End {
    day: u16,
    phase: Option<&'static str>,
    turn: Option<u32>,
    marked: Vec<u32>,
    ledger: Vec<Entry>,
    charged: Vec<(u32, i64)>,
    reading: Option<String>,
}

impl Page {
    /// An empty page, of what is wanted of these files.
    pub fn new(only: Only, files: Vec<String>) -> Page {
        Page {
            only,
            files,
            known: Known::default(),
            instructions: 0,
            refused: 0,
            days: BTreeMap::new(),
            fails: Vec::new(),
            standing: Vec::new(),
            charged: 0,
            flows: BTreeMap::new(),
            end: End::default(),
            rows: 0,
            too_long: None,
        }
    }

    /// What is said of a page that would be too long, and what to do.
    pub fn too_long(&self) -> Option<String> {
        let day = self.too_long?;
        Some(format!(
            "a page has at most 20,000 rows, and this one would have more by day {day}: write a page \
             of one day by --day N, of one issue by --issue N or of one account by --account N, or \
             leave out --html"
        ))
    }
}

/// Where an instruction stands, for people.
fn place(told: &Told, stands: Stands) -> String {
    let word = told.word.map(|word| format!("word {word}"));
    let line = stands.line.map(|line| format!("line {line}"));
    let line = match (stands.file, line) {
        (Some(file), Some(line)) => Some(format!("{file} {line}")),
        (Some(file), None) => Some(file.to_string()),
        (None, line) => line,
    };
    [line, word].into_iter().flatten().collect::<Vec<_>>().join(", ")
}
