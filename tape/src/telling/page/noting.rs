//! A page put together, fact by fact.

use super::account::Flow;
use super::parts::{Block, Charge, Delivery, Fail, Handed, Later, Roll, REFUSED_SHOWN};
use super::parts::{DayPart, IssuePart};
use super::{place, Page, MOST_ROWS};
use crate::facts::{Fact, Told};
use crate::input::Stands;
use crate::known::Known;
use crate::ledger::Step;
use crate::measure::{Grouped, Lots};
use crate::telling::text;
use settlement_day::{Entry, Instruction};

/// A fact with where its instruction stands, whether it is wanted on the page, and what is known then.
struct Noted<'a> {
    day: u16,
    when: String,
    shown: bool,
    fact: &'a Fact,
    known: &'a Known,
}

impl Page {
    /// Notes a fact of an instruction that stands there; answers whether the page has room for it.
    pub fn note(&mut self, told: &Told, stands: Stands) -> bool {
        let (shown, when) = (self.only.has(told), place(told, stands));
        let Told { day, fact, known, .. } = *told;
        let noted = Noted { day, when, shown, fact, known };
        match told.fact {
            Fact::Day { turn, .. } if self.only.day.is_none_or(|day| day == told.day) => {
                self.day(told.day).turn = *turn;
                self.row(&noted);
            }
            Fact::Instruction { instruction, refusal } => {
                self.instructions += 1;
                match refusal {
                    Some((_, why)) => self.refused(&noted, why),
                    None => self.done(&noted, instruction),
                }
            }
            Fact::Units { issue, .. } | Fact::Rounds { issue, .. } => self.units(&noted, *issue),
            Fact::Tie { .. } | Fact::SmallAfterFull { .. } | Fact::Owes { .. } => {
                self.order(&noted)
            }
            Fact::Handed { .. } | Fact::Waits { .. } | Fact::Partly { .. } => self.handed(&noted),
            Fact::Fails { .. } | Fact::Resolved { .. } | Fact::Met { .. } => self.fail(&noted),
            Fact::Charge { .. } => self.charge(&noted),
            _ => self.end(&noted),
        }
        self.too_long.is_none()
    }

    /// Counts a row of the page, if it is shown.
    fn row(&mut self, noted: &Noted) -> bool {
        if noted.shown && self.too_long.is_none() {
            self.rows += 1;
            self.too_long = (self.rows > MOST_ROWS).then(|| noted.known.day(noted.day));
        }
        noted.shown && self.too_long.is_none()
    }

    /// A day.
    fn day(&mut self, day: u16) -> &mut DayPart {
        self.days.entry(day).or_default()
    }

    /// An issue on a day.
    fn issue(&mut self, day: u16, issue: u32) -> &mut IssuePart {
        self.day(day).issues.entry(issue).or_default()
    }

    /// The account's record on a day in an issue.
    fn flow(&mut self, day: u16, issue: u32) -> &mut Flow {
        self.flows.entry((day, issue)).or_default()
    }

    /// Is this the one account that is wanted, on a day and in an issue that are?
    fn is_asked(&self, day: u16, issue: u32, account: u32) -> bool {
        self.only.account == Some(account) && self.is_wanted(day, issue)
    }

    /// An instruction that was refused.
    fn refused(&mut self, noted: &Noted, why: &str) {
        self.refused += 1;
        let Fact::Instruction { instruction, .. } = noted.fact else { return };
        if !noted.shown {
            return;
        }
        let (day, name) = (noted.day, instruction.name());
        self.day(day).refusals += 1;
        if self.day(day).refused.len() < REFUSED_SHOWN && self.row(noted) {
            let told = format!("{}: {name}: {why}", noted.when);
            self.day(day).refused.push(told);
        }
    }

    /// An instruction that was done.
    fn done(&mut self, noted: &Noted, instruction: &Instruction) {
        let (day, when) = (noted.day, noted.when.clone());
        match *instruction {
            Instruction::Trade { .. } if noted.shown => self.day(day).trades += 1,
            Instruction::Close if noted.shown => self.day(day).closed = Some(when),
            Instruction::Cutoff => self.cutoff(noted),
            Instruction::Mark { .. } | Instruction::Turn { .. } if self.row(noted) => {
                let told = format!("{when}: {}", text::said(instruction, noted.known));
                self.day(day).settings.push(told);
            }
            Instruction::Deliver { issue, account, lots } => {
                if self.is_wanted(day, issue) {
                    let shown = self.row(noted);
                    let delivery = Delivery::of(when, Some((account, lots)), shown);
                    put(&mut self.issue(day, issue).deliveries, delivery, |one| one.shown);
                }
                if self.is_asked(day, issue, account) {
                    self.flow(day, issue).delivered += u64::from(lots);
                }
            }
            Instruction::Resolve { issue, .. } | Instruction::PairOff { issue, .. }
                if self.is_wanted(day, issue) =>
            {
                let (shown, what) = (self.row(noted), text::said(instruction, noted.known));
                let later = Later { when, what, came: Vec::new(), shown };
                put(&mut self.issue(day, issue).later, later, |one| one.shown);
            }
            Instruction::Roll { days, rate } => {
                self.charged = 0;
                if self.is_day(day) {
                    self.day(day).roll = Some(Roll { when, days, rate, charges: Vec::new() });
                }
            }
            _ => {}
        }
    }

    /// Is this a day that is wanted?
    fn is_day(&self, day: u16) -> bool {
        self.only.day.is_none_or(|one| one == day)
    }

    /// Are this a day and an issue that are wanted?
    fn is_wanted(&self, day: u16, issue: u32) -> bool {
        self.is_day(day) && self.only.issue.is_none_or(|one| one == issue)
    }

    /// The cutoff: what is not handed is failed.
    fn cutoff(&mut self, noted: &Noted) {
        if !self.is_day(noted.day) {
            return;
        }
        let part = self.day(noted.day);
        part.cut = Some(noted.when.clone());
        part.issues.values_mut().for_each(|issue| issue.cut = true);
    }

    /// Units of an issue.
    fn units(&mut self, noted: &Noted, issue: u32) {
        if !self.is_wanted(noted.day, issue) {
            return;
        }
        let account = self.only.account;
        let before = self.issue(noted.day, issue).lots;
        let (block, all) = match noted.fact {
            Fact::Rounds { rounds, .. } => {
                let whole = Block::of_rounds(rounds, None).map_or(0, |block| block.all());
                (Block::of_rounds(rounds, account), whole)
            }
            fact => {
                let block = Block::of_units(fact, before);
                let all = block.as_ref().map_or(0, Block::all);
                (block.filter(|_| noted.shown), all)
            }
        };
        let part = self.issue(noted.day, issue);
        part.lots = before + all;
        if let Some(block) = block {
            if account.is_some() {
                self.flow(noted.day, issue).due += block.all();
            }
            self.row(noted);
            self.issue(noted.day, issue).blocks.push(block);
        }
    }

    /// Why units stand where they do, and what deliverers owe: at the close, or after a delivery.
    fn order(&mut self, noted: &Noted) {
        let Some(issue) = noted.fact.issue().filter(|_| noted.shown) else { return };
        let Fact::Owes { account, lots, .. } = *noted.fact else {
            let told = text::told(noted.fact, noted.known);
            let head = format!("issue {}: ", noted.known.issue(issue));
            let told = told.trim_start_matches(&head).to_string();
            self.row(noted);
            return self.issue(noted.day, issue).neighbours.push(told);
        };
        let part = self.issue(noted.day, issue);
        match part.deliveries.last_mut() {
            Some(delivery) => delivery.still_owes = Some(lots),
            None => {
                part.owes.push((account, lots));
                if self.is_asked(noted.day, issue, account) {
                    self.flow(noted.day, issue).owed = lots;
                }
            }
        }
    }

    /// Units that were handed, whole or in part, and stock that waits.
    fn handed(&mut self, noted: &Noted) {
        let Some(issue) = noted.fact.issue() else { return };
        if !self.is_wanted(noted.day, issue) {
            return;
        }
        let (account, lots) = match *noted.fact {
            Fact::Handed { first, last, account, lots, turn, .. } => {
                let units = last + 1 - first;
                let (to, part) = (vec![(account, units)], false);
                let rounds = turn.map(|turn| (turn.round, turn.until));
                self.issue(noted.day, issue).handed = last + 1;
                self.hands(noted, issue, Handed { first, last, lots, to, rounds, part });
                (account, u64::from(units) * u64::from(lots))
            }
            Fact::Partly { unit, account, lots, lacks, .. } => {
                let part = self.issue(noted.day, issue);
                part.partly = Some((unit, lots, lacks));
                let stock = Delivery::of(noted.when.clone(), None, noted.shown);
                put(&mut part.deliveries, stock, |one| one.shown);
                let (first, last, to) = (unit, unit, vec![(account, 1)]);
                let handed = Handed { first, last, lots, to, rounds: None, part: true };
                self.hands(noted, issue, handed);
                (account, lots.into())
            }
            Fact::Waits { stock, unit, account, .. } => {
                if let Some(delivery) = self.issue(noted.day, issue).delivery(noted.shown) {
                    delivery.waits = Some((stock, unit, account));
                }
                return;
            }
            _ => return,
        };
        if self.is_asked(noted.day, issue, account) {
            self.flow(noted.day, issue).received += lots;
        }
    }

    /// Units that the delivery at work hands: a row of their own, or with those before them.
    fn hands(&mut self, noted: &Noted, issue: u32, handed: Handed) {
        let Some(delivery) = self.issue(noted.day, issue).delivery(noted.shown) else { return };
        if delivery.handed.last_mut().is_some_and(|last| last.joins(&handed)) {
            return;
        }
        delivery.handed.push(handed);
        self.row(noted);
    }

    /// A fail that arises, is met by a resolve or by another fail.
    fn fail(&mut self, noted: &Noted) {
        match *noted.fact {
            Fact::Fails { issue, from, to, lots, first, last, units } => {
                let of = text::failed_units(first, last, units);
                let place = self.arises(noted, issue, (from, to), lots, of);
                if self.row(noted) {
                    self.issue(noted.day, issue).fails.push(place);
                }
                if self.is_asked(noted.day, issue, to) {
                    self.flow(noted.day, issue).failed.push((from, lots));
                }
                if self.is_asked(noted.day, issue, from) {
                    self.flow(noted.day, issue).fails.push((to, lots));
                }
            }
            Fact::Resolved { issue, from, to, lots } => {
                self.resolved(noted, issue, (from, to), lots)
            }
            Fact::Met { issue, account, step } => self.met(noted, issue, account, &step),
            _ => {}
        }
    }

    /// A fail: its place among all fails.
    fn arises(
        &mut self,
        noted: &Noted,
        issue: u32,
        (from, to): (u32, u32),
        lots: u32,
        of: String,
    ) -> usize {
        let became = noted.shown.then(Vec::new);
        let (day, left) = (noted.day, lots);
        self.fails.push(Fail { day, issue, from, to, lots, of, left, became });
        self.standing.push(self.fails.len() - 1);
        self.fails.len() - 1
    }

    /// Takes lots from the first standing fail of an issue that is wanted, and says what became of it;
    /// answers the day on which it arose.
    fn take(&mut self, lots: u32, wanted: impl Fn(&Fail) -> bool, told: &str) -> Option<u16> {
        let at = self.standing.iter().position(|place| wanted(&self.fails[*place]))?;
        let fail = &mut self.fails[self.standing[at]];
        fail.left = fail.left.saturating_sub(lots);
        if let Some(became) = &mut fail.became {
            became.push(told.to_string());
        }
        let (day, left) = (fail.day, fail.left);
        if left == 0 {
            self.standing.remove(at);
        }
        Some(day)
    }

    /// Lots of a fail that are handed over in a resolve.
    fn resolved(&mut self, noted: &Noted, issue: u32, (from, to): (u32, u32), lots: u32) {
        let (day, met, known) = (noted.day, Lots(lots.into()), noted.known);
        let told = format!("{met} resolved on day {}, {}", known.day(day), noted.when);
        let since = self.take(lots, |fail| fail.issue == issue && fail.from == from, &told);
        if self.row(noted) {
            let of = |since: u16| format!(", failed on day {}", known.day(since));
            let of = since.map_or(String::new(), of);
            let came = format!("{met} to account {}{of}", known.account(to));
            self.came(day, issue, came);
        }
        if self.is_asked(day, issue, to) {
            self.flow(day, issue).resolved += u64::from(lots);
        }
        if self.is_asked(day, issue, from) {
            self.flow(day, issue).resolves += u64::from(lots);
        }
    }

    /// Two fails that meet in a pair-off, and the one that takes their place.
    fn met(&mut self, noted: &Noted, issue: u32, account: u32, step: &Step) {
        let (day, lots) = (noted.day, Lots(step.lots.into()));
        let (by, on) = (noted.known.account(account), noted.known.day(day));
        let told = format!("{lots} paired off by account {by} on day {on}, {}", noted.when);
        self.take(step.lots, |fail| fail.issue == issue && fail.to == account, &told);
        self.take(step.lots, |fail| fail.issue == issue && fail.from == account, &told);
        let shown = self.row(noted);
        if !step.falls_away() {
            let of = format!("the pair-off of account {by}");
            let place = self.arises(noted, issue, (step.from, step.to), step.lots, of);
            if shown {
                self.issue(day, issue).fails.push(place);
            }
        }
        if shown {
            self.came(day, issue, text::told(noted.fact, noted.known));
        }
        for one in [step.from, account, step.to] {
            if self.is_asked(day, issue, one) {
                self.flow(day, issue).paired += u64::from(step.lots);
            }
        }
    }

    /// What came of the resolve or pair-off that is at work.
    fn came(&mut self, day: u16, issue: u32, came: String) {
        if let Some(later) = self.issue(day, issue).later.last_mut() {
            later.came.push(came);
            later.shown = true;
        }
    }

    /// The charge that a roll lays on an entry; they come in the order of the ledger.
    fn charge(&mut self, noted: &Noted) {
        let Fact::Charge { terms, from, to, lots, value, yen } = *noted.fact else { return };
        let day = noted.day;
        let place = self.standing.get(self.charged).copied();
        self.charged += 1;
        if let Some(became) = place.and_then(|place| self.fails[place].became.as_mut()) {
            let (yen, on) = (Grouped(yen.into()), noted.known.day(day));
            became.push(format!("charged {yen} yen at the roll of day {on}"));
        }
        if self.row(noted) {
            if let Some(roll) = &mut self.day(day).roll {
                roll.charges.push(Charge { terms, from, to, lots, value, yen });
            }
        }
        if self.is_asked(day, terms.issue, to) {
            self.flow(day, terms.issue).is_given(lots, yen);
        }
        if self.is_asked(day, terms.issue, from) {
            self.flow(day, terms.issue).is_charged(lots, yen);
        }
    }

    /// The book at the end, and where reading ends.
    fn end(&mut self, noted: &Noted) {
        if let Fact::End { phase, .. } = noted.fact {
            (self.end.day, self.end.phase) = (noted.day, noted.shown.then_some(*phase));
            self.known = noted.known.clone();
        }
        if !self.row(noted) {
            return;
        }
        match *noted.fact {
            Fact::ChangeOver { turn } => self.end.turn = Some(turn),
            Fact::Marked { issue } => self.end.marked.push(issue),
            Fact::Entry { issue, from, to, lots, since: day } => {
                if self.is_asked(noted.day, issue, to) {
                    self.flow(noted.day, issue).is_given(lots, 0);
                }
                if self.is_asked(noted.day, issue, from) {
                    self.flow(noted.day, issue).is_charged(lots, 0);
                }
                let (issue, from, to) = (issue as u8, from as u8, to as u8);
                self.end.ledger.push(Entry { issue, from, to, lots, day });
            }
            Fact::Charged { account, yen } => self.end.charged.push((account, yen)),
            Fact::ReadingEnds { refusal, ref why } => {
                let number = refusal.number();
                let told = format!("{}: reading ends, refused by {number}: {why}", noted.when);
                self.end.reading = Some(told);
            }
            _ => {}
        }
    }
}

impl Delivery {
    /// A delivery that has handed nothing yet.
    fn of(when: String, by: Option<(u32, u32)>, shown: bool) -> Delivery {
        Delivery { when, by, handed: Vec::new(), waits: None, still_owes: None, shown }
    }
}

impl IssuePart {
    /// The delivery that is at work, where something that it did is shown: then it is shown too.
    fn delivery(&mut self, shown: bool) -> Option<&mut Delivery> {
        let delivery = self.deliveries.last_mut().filter(|_| shown)?;
        delivery.shown = true;
        Some(delivery)
    }
}

/// Puts one behind the others, in the place of the last where that is not shown after all.
fn put<T>(all: &mut Vec<T>, one: T, is_shown: impl Fn(&T) -> bool) {
    if all.last().is_some_and(|last| !is_shown(last)) {
        all.pop();
    }
    all.push(one);
}
