//! An account's record by day and issue: what a receiver is told on the telephone, and a deliverer.

use super::markup::{name, number, section_of, table, DELIVERS, RECEIVES};
use super::Page;
use crate::known::Known;
use crate::measure::Grouped;
use std::io::{self, Write};

/// An account's record on a day in an issue, in lots and yen.
#[derive(Clone, Debug, Default, PartialEq, Eq)]
pub struct Flow {
    /// To receive: due, received, failed by whom, resolved to it; open at the roll or the tape's end, and
    /// the yen that it is given.
    pub due: u64,
    pub received: u64,
    pub failed: Vec<(u32, u32)>,
    pub resolved: u64,
    pub owed_to: u64,
    pub given: u64,
    /// To deliver: owed at the close, delivered, failed to whom, resolved by it; open at the roll or the
    /// tape's end, and the yen that it is charged.
    pub owed: u64,
    pub delivered: u64,
    pub fails: Vec<(u32, u32)>,
    pub resolves: u64,
    pub owes: u64,
    pub paid: u64,
    /// Lots of its fails that met in pair-offs.
    pub paired: u64,
}

impl Flow {
    /// So many lots are still open to it, and it is given so many yen.
    pub fn is_given(&mut self, lots: u32, yen: u64) {
        self.owed_to += u64::from(lots);
        self.given += yen;
    }

    /// It still owes so many lots, and is charged so many yen.
    pub fn is_charged(&mut self, lots: u32, yen: u64) {
        self.owes += u64::from(lots);
        self.paid += yen;
    }

    /// Has it anything to receive?
    fn receives(&self) -> bool {
        self.due + self.resolved + self.owed_to + self.given > 0 || !self.failed.is_empty()
    }

    /// Has it anything to deliver?
    fn delivers(&self) -> bool {
        self.owed + self.resolves + self.owes + self.paid > 0 || !self.fails.is_empty()
    }
}

/// The cells of an account's record on a day in an issue.
type Cells = fn(&Flow, &Known) -> [String; 7];

impl Page {
    /// The account's record: what it was to receive and to deliver, by day and issue.
    pub(super) fn account(&self, out: &mut impl Write) -> io::Result<()> {
        if self.only.account.is_none() {
            return Ok(());
        }
        let known = &self.known;
        let rows = |has: fn(&Flow) -> bool, row: Cells| -> Vec<Vec<String>> {
            let flows = self.flows.iter().filter(|(_, flow)| has(flow));
            let named = |((day, issue), flow): (&(u16, u32), &Flow)| {
                let (day, of) = (self.named_day(*day, *issue), name(known.issue(*issue)));
                [vec![day, of], row(flow, known).to_vec()].concat()
            };
            flows.map(named).collect()
        };
        section_of(out, "received", "What it was to receive", |out| {
            table(out, &RECEIVES, &rows(Flow::receives, received))
        })?;
        section_of(out, "delivered", "What it was to deliver", |out| {
            table(out, &DELIVERS, &rows(Flow::delivers, delivered))
        })
    }

    /// A day, with a link to the section of the issue on it.
    fn named_day(&self, day: u16, issue: u32) -> String {
        let there = self.days.get(&day).is_some_and(|part| part.issues.contains_key(&issue));
        let named = self.known.day(day);
        match there {
            true => format!("<a href=\"#day-{day}-issue-{issue}\">{named}</a>"),
            false => named.to_string(),
        }
    }
}

/// The cells of what it was to receive.
fn received(flow: &Flow, known: &Known) -> [String; 7] {
    let Flow { due, received, failed, resolved, paired, owed_to, given, .. } = flow;
    [
        number(*due),
        number(*received),
        with_whom(failed, "by", known),
        number(*resolved),
        number(*paired),
        number(*owed_to),
        number(*given),
    ]
}

/// The cells of what it was to deliver.
fn delivered(flow: &Flow, known: &Known) -> [String; 7] {
    let Flow { owed, delivered, fails, resolves, paired, owes, paid, .. } = flow;
    [
        number(*owed),
        number(*delivered),
        with_whom(fails, "to", known),
        number(*resolves),
        number(*paired),
        number(*owes),
        number(*paid),
    ]
}

/// Lots with the accounts by or to which they failed, those of one account together.
fn with_whom(fails: &[(u32, u32)], by: &str, known: &Known) -> String {
    if fails.is_empty() {
        return "0".to_string();
    }
    let mut sums: Vec<(u32, u64)> = Vec::new();
    for &(account, lots) in fails {
        match sums.iter_mut().find(|(other, _)| *other == account) {
            Some((_, sum)) => *sum += u64::from(lots),
            None => sums.push((account, lots.into())),
        }
    }
    let one = |(account, lots): &(u32, u64)| {
        let account = name(known.account(*account));
        format!("<li>{} {by} account {account}</li>", Grouped((*lots).into()))
    };
    let all: u64 = sums.iter().map(|(_, lots)| lots).sum();
    format!("{}<ul>{}</ul>", number(all), sums.iter().map(one).collect::<String>())
}
