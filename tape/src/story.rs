//! A tape run on a fresh book, and its facts told one after another.
//!
//! The library reads the words, makes the calls, and answers which unit is which and what is
//! charged. Instructions that follow one another are made together, up to one that changes what is told of those before
//! it: what is told of each is in what was answered, and in the book behind them all.

use crate::batch::{Batch, Made};
use crate::dealt::{Dealt, Turn};
use crate::facts::{Fact, Terms, Told};
use crate::input::{Day, Stands};
use crate::known::Known;
use crate::ledger::pair_off;
use crate::names::Names;
use crate::output::Untold;
use crate::progress::Meter;
use crate::text::why_ended;
use crate::units::{close, runs, runs_at_close, unit_of, waiting, Case, Run, Walk};
use crate::why::{owed_today, why};
use settlement_day::calls::{self, Done, Unit};
use settlement_day::{desk, tape, Book, Entry, Instruction, Refusal, ACCOUNTS, ISSUES, QUOTES};
use std::io;

/// The kind of the record of a fail; the others are handovers.
const FAIL: u32 = 12;

/// What is done with each fact.
pub type Sink<'a> = dyn FnMut(&Told) -> io::Result<()> + 'a;

/// A tape as it runs.
pub struct Story<'a> {
    /// The book behind the last instruction that is made.
    pub book: Book,
    /// Instructions that are made together, some of which may not be told.
    pub batch: Batch,
    /// The ledger before the last of them, where that is a pair-off or a roll.
    pub entries: Vec<Entry>,
    /// For each issue, today's handovers from the house: their number and lots.
    pub handed: [(u32, u64); ISSUES],
    /// For each issue, today's units where full ones are dealt in turn.
    pub dealt: Vec<Dealt>,
    /// For each issue, today's units in the old order, where they are told.
    pub runs: Vec<Vec<Run>>,
    /// The first word of the instruction that is at work, and where that stands.
    pub word: Option<usize>,
    pub stands: Stands<'a>,
    /// The names, and the dates of the days up to today.
    pub known: Known,
    pub sink: &'a mut Sink<'a>,
}

/// A record that a call wrote.
#[derive(Clone, Copy)]
struct Record {
    kind: u32,
    issue: u32,
    from: u32,
    to: u32,
    lots: u32,
}

/// Runs a tape and tells its facts; answers the day on which it ends.
pub fn tell<'a>(day: &'a Day, sink: &'a mut Sink<'a>) -> Result<u16, Untold> {
    let mut story = Story::fresh(&day.names, sink);
    story.fact(&Fact::Day { day: 0, turn: 0 })?;
    let (mut reading, mut meter) = (day.reading(), Meter::of_words(day.words()));
    while reading.more()? {
        meter.at(reading.word());
        let stands = reading.stands();
        match story.read(reading.words(), reading.word(), stands)? {
            Some(count) => reading.pass(count),
            None => break,
        }
    }
    story.end()?;
    Ok(story.book.day)
}

impl<'a> Story<'a> {
    /// A story that begins with a fresh book.
    pub fn fresh(names: &Names, sink: &'a mut Sink<'a>) -> Story<'a> {
        Story {
            book: Book::fresh(),
            batch: Batch::default(),
            entries: Vec::new(),
            handed: [(0, 0); ISSUES],
            dealt: Vec::new(),
            runs: Vec::new(),
            word: None,
            stands: Stands::default(),
            known: Known::of(names),
            sink,
        }
    }

    /// Makes the call of the instruction that begins these words, the first of which has this index and stands
    /// there, and tells it; answers how many words it has, or nothing where reading ends there. It may have been
    /// made with one before it already: the words are told of one after another.
    pub fn read(
        &mut self,
        words: &[u32],
        word: usize,
        stands: Stands<'a>,
    ) -> io::Result<Option<usize>> {
        (self.word, self.stands) = (Some(word), stands);
        if !self.batch.has_next() {
            if let Err(refusal) = self.make(words) {
                let why = why_ended(words, refusal);
                self.fact(&Fact::ReadingEnds { refusal, why })?;
                return Ok(None);
            }
        }
        let Some(made) = self.batch.next() else { return Ok(None) };
        self.made(&made, words).map(|()| Some(made.count))
    }
}

impl Story<'_> {
    /// Tells a fact of today.
    pub fn fact(&mut self, fact: &Fact) -> io::Result<()> {
        self.fact_of(self.book.day, fact)
    }

    /// Tells a fact of a day.
    fn fact_of(&mut self, day: u16, fact: &Fact) -> io::Result<()> {
        let stands = self.word.map_or(Stands::default(), |_| self.stands);
        (self.sink)(&Told { day, word: self.word, stands, fact, known: &self.known })
    }

    /// Makes instructions that begin these words together, after a look at the ledger where that is told of.
    fn make(&mut self, words: &[u32]) -> Result<usize, Refusal> {
        let mut together = Together::default();
        let used = self.batch.read(words, |instruction, _| !together.takes(instruction))?;
        let last = self.batch.last().copied();
        self.look(last.as_ref());
        self.batch.run(&mut self.book, &words[..used])
    }

    /// Looks at the ledger before an instruction that is told by it.
    fn look(&mut self, instruction: Option<&Instruction>) {
        if let Some(Instruction::PairOff { .. } | Instruction::Roll { .. }) = instruction {
            self.entries.clear();
            self.entries.extend(self.book.ledger());
        }
    }

    /// Makes one instruction, which these words are, on the book as it is, whatever changed it before, and tells it.
    pub fn instruction(&mut self, instruction: &Instruction, words: &[u32]) -> io::Result<()> {
        self.look(Some(instruction));
        let quotes = quotes_of(instruction, words);
        match self.batch.alone(&mut self.book, instruction, &quotes) {
            Some(made) => self.made(&made, words),
            None => Ok(()),
        }
    }

    /// Tells what an instruction did, or why it was refused. These words begin with it.
    #[inline]
    fn made(&mut self, made: &Made, words: &[u32]) -> io::Result<()> {
        let Made { instruction, refusal, .. } = *made;
        if refusal.is_none() && matches!(instruction, Instruction::Trade { .. }) {
            return self.fact(&Fact::Instruction { instruction, refusal: None });
        }
        self.told(made, words)
    }

    /// The same of any instruction.
    fn told(&mut self, made: &Made, words: &[u32]) -> io::Result<()> {
        let Made { instruction, refusal, .. } = *made;
        let quotes = quotes_of(&instruction, words);
        let refusal = refusal.map(|refusal| {
            let book = self.batch.refused_on(&self.book);
            (refusal, why(book, &instruction, &quotes, refusal, &self.known))
        });
        let done = refusal.is_none();
        let told = Fact::Instruction { instruction, refusal };
        if let (Instruction::Roll { days, rate }, true) = (instruction, done) {
            return self.rolled(&told, days, rate, &quotes);
        }
        self.fact(&told)?;
        if !done {
            return Ok(());
        }
        let records = |story: &Story| records(story.batch.records());
        match instruction {
            Instruction::Close => self.closed(),
            Instruction::Deliver { issue, account, .. } => {
                self.delivered(issue, account, &records(self))
            }
            Instruction::Cutoff => self.cut(&records(self)),
            Instruction::Resolve { .. } => self.resolved(&records(self)),
            Instruction::PairOff { issue, account } => self.paired(issue, account),
            Instruction::Trade { .. }
            | Instruction::Roll { .. }
            | Instruction::Mark { .. }
            | Instruction::Turn { .. } => Ok(()),
        }
    }

    /// The issues' units in their order, which case decided where they are close, and what each
    /// deliverer owes.
    fn closed(&mut self) -> io::Result<()> {
        self.handed = [(0, 0); ISSUES];
        self.dealt.clear();
        self.runs.clear();
        if !self.book.deals_in_turn() {
            let one_by_one = || (0..ISSUES as u32).map(|issue| runs(&self.book, issue)).collect();
            self.runs = runs_at_close(&self.book).unwrap_or_else(one_by_one);
        }
        for issue in 0..ISSUES as u32 {
            if self.book.deals_in_turn() {
                self.dealt_in_turn(issue)?;
            } else {
                self.account_by_account(issue)?;
            }
            for account in 0..ACCOUNTS as u32 {
                self.owes(issue, account, 1)?;
            }
        }
        Ok(())
    }

    /// An issue's units in the old order.
    fn account_by_account(&mut self, issue: u32) -> io::Result<()> {
        let runs = self.runs[issue as usize].clone();
        runs.iter().try_for_each(|run| self.units(issue, run))?;
        close(&runs).into_iter().try_for_each(|group| self.fact(&decided(issue, group)))
    }

    /// An issue's units in the new order: the rounds, then the small units.
    fn dealt_in_turn(&mut self, issue: u32) -> io::Result<()> {
        let dealt = Dealt::of(&self.book, issue);
        for rounds in dealt.rounds() {
            self.fact(&Fact::Rounds { issue, rounds: rounds.clone() })?;
        }
        dealt.small().iter().try_for_each(|run| self.units(issue, run))?;
        for group in close(&dealt.ranked()) {
            let mut fact = decided(issue, group);
            if let Fact::SmallAfterFull { unit, account, .. } = &mut fact {
                // The last full unit is that of the last round.
                *unit = dealt.full() - 1;
                *account = dealt.turn_of(*unit).map_or(*account, |(account, _)| account);
            }
            self.fact(&fact)?;
        }
        self.dealt.push(dealt);
        Ok(())
    }

    /// Like units of an account.
    fn units(&mut self, issue: u32, run: &Run) -> io::Result<()> {
        let Run { first, account, lots, due, .. } = *run;
        self.fact(&Fact::Units { issue, first, last: run.last(), account, lots, due })
    }

    /// Where like units stand, if they are full ones dealt in turn today.
    fn turn_of(&self, issue: u32, first: u32, last: u32) -> Option<Turn> {
        let (_, turn) = self.dealt.get(issue as usize)?.turn_of(first)?;
        Some(Turn { until: turn.round + last - first, ..turn })
    }

    /// What an account still owes, if it is at least so much.
    fn owes(&mut self, issue: u32, account: u32, least: u64) -> io::Result<()> {
        let lots = owed_today(&self.book, issue, account) + self.batch.coming(issue, account).0;
        if lots < least {
            return Ok(());
        }
        self.fact(&Fact::Owes { issue, account, lots })
    }

    /// What was handed over, the stock that waits for the next unit, and what is still owed.
    fn delivered(&mut self, issue: u32, account: u32, records: &[Record]) -> io::Result<()> {
        for like in records.chunk_by(|one, next| (one.to, one.lots) == (next.to, next.lots)) {
            let first = self.handed[issue as usize].0;
            like.iter().for_each(|record| self.hand(record));
            let last = self.handed[issue as usize].0 - 1;
            let Record { to, lots, .. } = like[0];
            let turn = self.turn_of(issue, first, last);
            self.fact(&Fact::Handed { issue, first, last, account: to, lots, turn })?;
        }
        let (unit, handed) = self.handed[issue as usize];
        let delivered = self.book.delivered_total(issue) - self.batch.coming(issue, account).1;
        let stock = delivered.saturating_sub(handed);
        if stock > 0 {
            if let Some(Unit { account, lots }) = self.unit(issue, unit) {
                let turn = self.turn_of(issue, unit, unit);
                self.fact(&Fact::Waits { issue, stock, unit, account, lots, turn })?;
            }
        }
        self.owes(issue, account, 0)
    }

    /// A unit of an issue: of those that are told, where nothing is lifted; otherwise the library's answer.
    fn unit(&self, issue: u32, unit: u32) -> Option<Unit> {
        if self.book.lifts(issue).next().is_none() {
            let told = match self.dealt.get(issue as usize) {
                Some(dealt) => dealt.unit(unit),
                None => self.runs.get(issue as usize).and_then(|runs| unit_of(runs, unit)),
            };
            if told.is_some() {
                return told;
            }
        }
        calls::unit(&self.book, issue, unit).ok().flatten()
    }

    /// Counts a handover from the house.
    fn hand(&mut self, record: &Record) {
        let (units, lots) = &mut self.handed[record.issue as usize];
        *units += 1;
        *lots += u64::from(record.lots);
    }

    /// The remaining stock and the fails, issue by issue, with the units that they belong to.
    fn cut(&mut self, records: &[Record]) -> io::Result<()> {
        for of_issue in records.chunk_by(|one, next| one.issue == next.issue) {
            let issue = of_issue[0].issue;
            let handed = self.handed[issue as usize].0;
            let mut walk = Walk::along(match self.dealt.get(issue as usize) {
                Some(dealt) => dealt.waiting(handed),
                None => match self.runs.get(issue as usize) {
                    Some(runs) => waiting(runs, handed),
                    None => waiting(&runs(&self.book, issue), handed),
                },
            });
            for &Record { kind, from, to, lots, .. } in of_issue {
                let (first, last, units) = walk.take(lots);
                let fact = if kind == FAIL {
                    Fact::Fails { issue, from, to, lots, first, last, units }
                } else {
                    Fact::Partly { issue, unit: first, account: to, lots, lacks: walk.lacks() }
                };
                self.fact(&fact)?;
            }
        }
        if records.iter().all(|record| record.kind != FAIL) {
            self.fact(&Fact::NothingFails)?;
        }
        Ok(())
    }

    /// Who received what in a resolve.
    fn resolved(&mut self, records: &[Record]) -> io::Result<()> {
        for &Record { issue, from, to, lots, .. } in records {
            self.fact(&Fact::Resolved { issue, from, to, lots })?;
        }
        Ok(())
    }

    /// The steps of a pair-off, with the entries that meet, and the issue's entries after it.
    fn paired(&mut self, issue: u32, account: u32) -> io::Result<()> {
        let Done { count: steps, cancelled } = self.batch.did();
        self.fact(&Fact::Paired { issue, account, steps, cancelled })?;
        for step in pair_off(&mut self.entries, issue, account, self.book.day) {
            self.fact(&Fact::Met { issue, account, step })?;
        }
        let entries: Vec<Entry> =
            self.book.ledger().filter(|entry| u32::from(entry.issue) == issue).collect();
        for Entry { from, to, lots, day: since, .. } in entries {
            self.fact(&Fact::Left { issue, from: from.into(), to: to.into(), lots, since })?;
        }
        Ok(())
    }

    /// The roll and the charge on each entry, still of the day that ends; then the next day begins.
    fn rolled(
        &mut self,
        told: &Fact,
        days: u32,
        rate: u32,
        quotes: &[u32; QUOTES],
    ) -> io::Result<()> {
        let day = self.book.day - 1;
        self.fact_of(day, told)?;
        for Entry { issue, from, to, lots, .. } in std::mem::take(&mut self.entries) {
            let at = usize::from(issue) % ISSUES;
            let (price, accrued) = (quotes[at], quotes[ISSUES + at]);
            let value = desk::value(lots, price, accrued).unwrap_or(0);
            let yen = desk::charge(lots, price, days, rate, accrued).unwrap_or(0);
            let terms = Terms { issue: issue.into(), price, accrued, days, rate };
            let fact = Fact::Charge { terms, from: from.into(), to: to.into(), lots, value, yen };
            self.fact_of(day, &fact)?;
        }
        self.known.done(&Instruction::Roll { days, rate });
        self.word = None;
        self.fact(&Fact::Day { day: self.book.day, turn: self.book.turn })
    }

    /// The phase, the marked issues, the ledger and the charges at the end.
    pub fn end(&mut self) -> io::Result<()> {
        self.word = None;
        let phase = self.book.phase.name().unwrap_or("no phase");
        let entries: Vec<Entry> = self.book.ledger().collect();
        let charges: Vec<(u32, i64)> =
            (0..).zip(self.book.charges).filter(|(_, yen)| *yen != 0).collect();
        self.fact(&Fact::End { phase, entries: entries.len(), charged: charges.len() })?;
        if self.book.turn != 0 {
            self.fact(&Fact::ChangeOver { turn: self.book.turn })?;
        }
        for issue in 0..ISSUES as u32 {
            if self.book.is_marked(issue) {
                self.fact(&Fact::Marked { issue })?;
            }
        }
        for Entry { issue, from, to, lots, day: since } in entries {
            let (issue, from, to) = (issue.into(), from.into(), to.into());
            self.fact(&Fact::Entry { issue, from, to, lots, since })?;
        }
        for (account, yen) in charges {
            self.fact(&Fact::Charged { account, yen })?;
        }
        Ok(())
    }
}

/// Which case of the rule decided between close neighbours.
fn decided(issue: u32, group: &[Run]) -> Fact {
    let (one, next) = (&group[0], &group[1]);
    let tie = |case, lots| {
        let accounts = group.iter().map(|run| run.account).collect();
        Fact::Tie { issue, case, lots, accounts }
    };
    match Case::of(one, next) {
        case @ Case::BothFull => tie(case, one.due),
        case @ Case::BothSmall => tie(case, one.lots),
        Case::FullAndSmall | Case::SmallAndFull => {
            let (unit, account) = (one.last(), one.account);
            let (next, follower) = (next.first, next.account);
            Fact::SmallAfterFull { issue, unit, account, next, follower }
        }
    }
}

/// The quotes of the roll that begins these words; 0 of another instruction.
pub(crate) fn quotes_of(instruction: &Instruction, words: &[u32]) -> [u32; QUOTES] {
    match instruction {
        Instruction::Roll { .. } => tape::quotes(words),
        _ => [0; QUOTES],
    }
}

/// Which instructions are made together. A close, a cutoff and a pair-off are the last: what is told of them is in the
/// book right behind them. A roll is alone, since what is told before it is of its day; and no resolve is before a
/// pair-off, which is told by the ledger before them all.
#[derive(Default)]
struct Together {
    any: bool,
    resolved: bool,
    over: bool,
}

impl Together {
    /// Is the instruction one of those that are made together with what it takes so far?
    #[inline]
    fn takes(&mut self, instruction: &Instruction) -> bool {
        use Instruction::{Close, Cutoff, PairOff, Resolve, Roll};
        let (takes, is_last) = match instruction {
            Roll { .. } => (!self.any, true),
            PairOff { .. } => (!self.resolved, true),
            Close | Cutoff => (true, true),
            _ => (true, false),
        };
        let takes = takes && !self.over;
        self.any = true;
        self.resolved |= matches!(instruction, Resolve { .. });
        self.over = is_last;
        takes
    }
}

/// The records that these words are.
fn records(words: &[u32]) -> Vec<Record> {
    words.chunks_exact(2).map(|words| record(words[0], words[1])).collect()
}

/// The record of a head and a lots word.
fn record(head: u32, lots: u32) -> Record {
    Record {
        kind: head >> 28,
        issue: head >> 24 & 15,
        from: head >> 18 & 63,
        to: head >> 12 & 63,
        lots: lots & 0x0fff_ffff,
    }
}
