//! The units of an issue as runs of like ones, out of the library's answers, and a walk along them.

use crate::batch::{Batch, Made};
use settlement_day::calls::{self, Unit};
use settlement_day::{tape, Book, Instruction, ACCOUNTS, ISSUES, WRITER_WORDS};

/// The lots of a full unit.
pub const FULL: u32 = 100_000;

/// Like units one after another: of one account, of so many lots each.
#[derive(Clone, Copy, Debug, PartialEq, Eq)]
pub struct Run {
    pub first: u32,
    pub count: u32,
    pub account: u32,
    pub lots: u32,
    /// The account's net.
    pub due: u32,
}

impl Run {
    /// The last unit of the run.
    pub fn last(&self) -> u32 {
        self.first + self.count - 1
    }

    /// Are these full units?
    pub fn full(&self) -> bool {
        self.lots == FULL
    }

    /// Is this run ranked equal to the next, so that the lower account came first?
    fn ties(&self, next: &Run) -> bool {
        match Case::of(self, next) {
            Case::BothFull => self.due == next.due,
            Case::BothSmall => self.lots == next.lots,
            Case::FullAndSmall | Case::SmallAndFull => false,
        }
    }
}

/// The cases of the rule by which two units are ranked.
#[derive(Clone, Copy, Debug, PartialEq, Eq)]
pub enum Case {
    /// By the accounts' nets, the larger first.
    BothFull,
    /// The full one is first.
    FullAndSmall,
    /// The full one is first: never of neighbours in their order.
    SmallAndFull,
    /// By the units' own lots, the larger first.
    BothSmall,
}

impl Case {
    /// The case of two units.
    pub fn of(one: &Run, next: &Run) -> Case {
        match (one.full(), next.full()) {
            (true, true) => Case::BothFull,
            (true, false) => Case::FullAndSmall,
            (false, true) => Case::SmallAndFull,
            (false, false) => Case::BothSmall,
        }
    }

    /// The case in words.
    pub fn name(self) -> &'static str {
        match self {
            Case::BothFull => "both full",
            Case::FullAndSmall => "full and small",
            Case::SmallAndFull => "small and full",
            Case::BothSmall => "both small",
        }
    }
}

/// The runs of an issue in order. An account's full units are net / 100,000, so that the library is
/// asked once for each run.
pub fn runs(book: &Book, issue: u32) -> Vec<Run> {
    let mut runs = Vec::new();
    let mut first = 0;
    while let Ok(Some(unit)) = calls::unit(book, issue, first) {
        let due = book.net(issue, unit.account).max(0).unsigned_abs();
        let count = if unit.lots == FULL { (due / FULL).max(1) } else { 1 };
        runs.push(Run { first, count, account: unit.account, lots: unit.lots, due });
        first += count;
    }
    runs
}

/// The runs of all issues of a book that was closed just now and is not dealt in turn, by one look at the book: the
/// units in their order are those that are handed over where all that is owed is delivered. None, if that is refused.
pub fn runs_at_close(book: &Book) -> Option<Vec<Vec<Run>>> {
    let (mut all, mut words) = (vec![Vec::new(); ISSUES], Vec::new());
    for issue in 0..ISSUES as u32 {
        for account in 0..ACCOUNTS as u32 {
            let owed = book.net(issue, account).min(0).unsigned_abs();
            if owed > 0 {
                let mut written = [0; WRITER_WORDS];
                let deliver = Instruction::Deliver { issue, account, lots: owed };
                let count = tape::write(&deliver, &[], &mut written).ok()?;
                words.extend_from_slice(&written[..count]);
            }
        }
    }
    let (mut delivered, mut batch, mut at) = (book.clone(), Batch::default(), 0);
    while at < words.len() {
        at += batch.make(&mut delivered, &words[at..], |_, _| false).ok()?;
        while let Some(made) = batch.next() {
            let Made { instruction: Instruction::Deliver { issue, .. }, refusal: None, .. } = made
            else {
                return None;
            };
            for record in batch.records().chunks_exact(2) {
                hand(&mut all[issue as usize], book, issue, record);
            }
        }
    }
    Some(all)
}

/// Counts the unit of a handover's record: it is like the last one, or begins a run.
fn hand(runs: &mut Vec<Run>, book: &Book, issue: u32, record: &[u32]) {
    let (account, lots) = (record[0] >> 12 & 63, record[1] & 0x0fff_ffff);
    let first = runs.last().map_or(0, |run| run.last() + 1);
    match runs.last_mut() {
        Some(run) if (run.account, run.lots) == (account, lots) => run.count += 1,
        _ => {
            let due = book.net(issue, account).max(0).unsigned_abs();
            runs.push(Run { first, count: 1, account, lots, due });
        }
    }
}

/// Where neighbours are close: the groups of runs that are ranked equal, two or more each, and a small
/// run with the full one in front of it.
pub fn close(runs: &[Run]) -> Vec<&[Run]> {
    let ties = runs.chunk_by(Run::ties).filter(|group| group.len() > 1);
    let follows = |pair: &&[Run]| Case::of(&pair[0], &pair[1]) == Case::FullAndSmall;
    let mut close: Vec<&[Run]> = ties.chain(runs.windows(2).filter(follows)).collect();
    close.sort_by_key(|group| group[1].first);
    close
}

/// A unit of runs, if it is one of them.
pub fn unit_of(runs: &[Run], unit: u32) -> Option<Unit> {
    let run = runs.get(runs.partition_point(|run| run.last() < unit))?;
    Some(Unit { account: run.account, lots: run.lots })
}

/// The runs from a unit on.
pub fn waiting(runs: &[Run], unit: u32) -> Vec<Run> {
    let rest = runs.iter().filter(|run| run.last() >= unit);
    let cut = |&run: &Run| {
        let first = run.first.max(unit);
        Run { first, count: run.last() + 1 - first, ..run }
    };
    rest.map(cut).collect()
}

/// A walk along units as they fail: the unit that is reached, and what it still lacks.
pub struct Walk {
    runs: Vec<Run>,
    at: usize,
    unit: u32,
    lacks: u32,
}

impl Walk {
    /// At the beginning of the first run.
    pub fn along(runs: Vec<Run>) -> Walk {
        let mut walk = Walk { runs, at: 0, unit: 0, lacks: 0 };
        walk.begin();
        walk
    }

    /// The unit that is reached, with its account and lots, if there is one.
    pub fn unit(&self) -> Option<(u32, u32, u32)> {
        self.runs.get(self.at).map(|run| (self.unit, run.account, run.lots))
    }

    /// What the unit that is reached still lacks.
    pub fn lacks(&self) -> u32 {
        self.lacks
    }

    /// Goes on by so many lots; gives the first and the last unit that they are of, and how many they
    /// are.
    pub fn take(&mut self, lots: u32) -> (u32, u32, u32) {
        let first = self.unit;
        let (mut last, mut units) = (first, 0);
        let mut left = lots;
        while left > 0 && self.at < self.runs.len() {
            let taken = left.min(self.lacks);
            left -= taken;
            self.lacks -= taken;
            last = self.unit;
            units += 1;
            if self.lacks == 0 {
                self.pass();
            }
        }
        (first, last, units)
    }

    /// Goes on to the next unit, which lacks all its lots.
    fn pass(&mut self) {
        let run = self.runs[self.at];
        if self.unit < run.last() {
            self.unit += 1;
            self.lacks = run.lots;
        } else {
            self.at += 1;
            self.begin();
        }
    }

    /// At the first unit of the run, if there is one.
    fn begin(&mut self) {
        if let Some(run) = self.runs.get(self.at) {
            (self.unit, self.lacks) = (run.first, run.lots);
        }
    }
}

#[cfg(test)]
mod tests {
    use super::*;
    use settlement_day::place;

    fn book(nets: &[(u32, i32)]) -> Book {
        let mut book = Book::fresh();
        for &(account, net) in nets {
            book.nets[place(0, account).unwrap()] = net;
            book.nets[place(0, 63).unwrap()] -= net;
        }
        book
    }

    /// The runs of P5.
    fn p5() -> Vec<Run> {
        runs(&book(&[(1, 230_000), (2, 250_000), (3, 150_000)]), 0)
    }

    #[test]
    fn the_runs_of_p5() {
        let found: Vec<[u32; 4]> =
            p5().iter().map(|run| [run.first, run.count, run.account, run.lots]).collect();
        let expected = [
            [0, 2, 2, 100_000],
            [2, 2, 1, 100_000],
            [4, 1, 3, 100_000],
            [5, 1, 2, 50_000],
            [6, 1, 3, 50_000],
            [7, 1, 1, 30_000],
        ];
        assert_eq!(found, expected);
    }

    #[test]
    fn every_unit_is_in_a_run() {
        let book = book(&[(0, 19_500_000), (5, 1), (9, 100_000), (10, 300_001)]);
        let runs = runs(&book, 0);
        let mut k = 0;
        for run in &runs {
            for unit in run.first..=run.last() {
                assert_eq!(unit, k);
                let asked = calls::unit(&book, 0, k).unwrap().unwrap();
                assert_eq!((asked.account, asked.lots), (run.account, run.lots));
                k += 1;
            }
        }
        assert_eq!((k, calls::unit(&book, 0, k)), (195 + 1 + 1 + 4, Ok(None)));
    }

    #[test]
    fn the_runs_at_a_close_are_those_asked_one_by_one() {
        let day = "trade 0 9 1 19500000\ntrade 0 9 2 500000\ntrade 0 8 2 500000\ntrade 0 8 3 500000\ntrade 0 7 4 99999\n\
                   trade 0 7 5 99999\ntrade 0 7 6 1\ntrade 3 1 9 250000\ntrade 3 2 9 1\nmark 15 1\ntrade 15 5 6 300002\n\
                   close\n";
        let words = crate::bytes::split(&crate::text::to_tape(day).unwrap()).0;
        let mut book = Book::fresh();
        let used = Batch::default().make(&mut book, &words, |_, _| false);
        assert_eq!((used, book.phase), (Ok(words.len()), settlement_day::Phase::SETTLING));
        let by_one: Vec<Vec<Run>> = (0..ISSUES as u32).map(|issue| runs(&book, issue)).collect();
        assert_eq!(by_one.iter().map(Vec::len).collect::<Vec<_>>()[..4], [6, 0, 0, 2]);
        assert_eq!(runs_at_close(&book), Some(by_one));
        book.nets[0] += 1;
        assert_eq!(runs_at_close(&book), None);
    }

    #[test]
    fn close_are_equal_nets_equal_small_units_and_a_small_one_after_a_full_one() {
        let told = |runs: &[Run]| -> Vec<(Case, Vec<u32>)> {
            let accounts = |group: &[Run]| group.iter().map(|run| run.account).collect();
            let case = |group: &[Run]| Case::of(&group[0], &group[1]);
            close(runs).iter().map(|group| (case(group), accounts(group))).collect()
        };
        let found = told(&runs(&book(&[(4, 250_000), (2, 250_000), (7, 50_000)]), 0));
        let expected = [
            (Case::BothFull, vec![2, 4]),
            (Case::FullAndSmall, vec![4, 2]),
            (Case::BothSmall, vec![2, 4, 7]),
        ];
        assert_eq!(found, expected);
        let expected = [(Case::FullAndSmall, vec![3, 2]), (Case::BothSmall, vec![2, 3])];
        assert_eq!(told(&p5()), expected);
    }

    #[test]
    fn neighbours_are_never_a_small_one_before_a_full_one() {
        let p5 = p5();
        assert!(p5.windows(2).all(|pair| Case::of(&pair[0], &pair[1]) != Case::SmallAndFull));
        assert_eq!(Case::of(&p5[3], &p5[2]), Case::SmallAndFull);
    }

    #[test]
    fn a_walk_along_p5_after_five_units() {
        let mut walk = Walk::along(waiting(&p5(), 5));
        assert_eq!(walk.unit(), Some((5, 2, 50_000)));
        assert_eq!(walk.take(45_000), (5, 5, 1));
        assert_eq!(walk.lacks(), 5_000);
        assert_eq!(walk.take(5_000), (5, 5, 1));
        assert_eq!(walk.take(25_000), (6, 6, 1));
        assert_eq!(walk.take(25_000 + 30_000), (6, 7, 2));
        assert_eq!(walk.unit(), None);
        assert_eq!(Walk::along(p5()).take(450_000), (0, 4, 5));
        assert_eq!(Walk::along(waiting(&p5(), 1)).take(100_001), (1, 2, 2));
    }
}
