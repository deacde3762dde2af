//! One of the two tapes as it runs on a fresh book, a day at a time, and what is noted of a day.

use super::order::Order;
use super::sums::Sums;
use crate::facts::{Fact, Told};
use crate::input::Stands;
use crate::progress::Meter;
use crate::story::{Sink, Story};
use crate::whole::Whole;
use settlement_day::{Book, Instruction, Refusal};
use std::cell::RefCell;
use std::collections::BTreeMap;
use std::io;
use std::rc::Rc;

/// What is noted of a day.
#[derive(Default)]
pub struct Record {
    pub lines: Vec<Line>,
    /// The instructions that were refused, in their order.
    pub refused: Vec<Refused>,
    /// The order of units at the close, by issue.
    pub orders: BTreeMap<u32, Order>,
    pub sums: Sums,
    /// Where reading ends on this day, if it does before the tape.
    ends: Option<Ends>,
}

/// An instruction, and its first word.
#[derive(Clone, Copy, Debug, PartialEq, Eq)]
pub struct Line {
    pub word: usize,
    pub instruction: Instruction,
}

/// The refusal of an instruction, by its place among those of the day.
pub struct Refused {
    pub at: usize,
    pub refusal: Refusal,
    pub why: Rc<str>,
}

/// Where reading ends, and why.
#[derive(Clone, Debug, PartialEq, Eq)]
pub struct Ends {
    pub word: usize,
    pub refusal: Refusal,
    pub why: String,
}

impl Record {
    /// Notes a fact.
    pub fn note(&mut self, told: &Told) {
        let word = told.word.unwrap_or_default();
        match told.fact {
            Fact::Instruction { instruction, refusal } => {
                if let Some((refusal, why)) = refusal {
                    self.refuse(*refusal, why);
                }
                self.lines.push(Line { word, instruction: *instruction });
            }
            Fact::Units { issue, first, last, account, lots, .. } => {
                self.order(*issue).units_of(*account, last + 1 - first, *lots);
            }
            Fact::Rounds { issue, rounds } => self.order(*issue).dealt(rounds),
            Fact::ReadingEnds { refusal, why } => {
                self.ends = Some(Ends { word, refusal: *refusal, why: why.clone() });
            }
            fact => self.sums.note(fact),
        }
    }

    /// The instruction that is noted next is refused. Like reasons one after another are kept once.
    fn refuse(&mut self, refusal: Refusal, why: &str) {
        let last = self.refused.last().filter(|last| *last.why == *why);
        let why = last.map_or_else(|| Rc::from(why), |last| Rc::clone(&last.why));
        self.refused.push(Refused { at: self.lines.len(), refusal, why });
    }

    /// The order of an issue's units.
    fn order(&mut self, issue: u32) -> &mut Order {
        self.orders.entry(issue).or_default()
    }
}

/// What notes the facts of a story.
pub fn noting(record: &RefCell<Record>) -> impl FnMut(&Told) -> io::Result<()> + '_ {
    move |told: &Told| {
        record.borrow_mut().note(told);
        Ok(())
    }
}

/// A tape as it runs.
pub struct Side<'a> {
    pub day: &'a Whole<'a>,
    /// The word that is read next.
    at: usize,
    over: bool,
    story: Story<'a>,
    record: &'a RefCell<Record>,
    /// Where reading ended, if it did before the tape.
    pub ends: Option<Ends>,
}

impl<'a> Side<'a> {
    /// A tape at its beginning; its facts are noted in the record.
    pub fn new(
        day: &'a Whole<'a>,
        record: &'a RefCell<Record>,
        sink: &'a mut Sink<'a>,
    ) -> Side<'a> {
        let story = Story::fresh(&day.day().names, sink);
        Side { day, at: 0, over: false, story, record, ends: None }
    }

    /// How many words there are, and how many of them are read.
    pub fn words(&self) -> (usize, usize) {
        (self.day.words().len(), self.at)
    }

    /// The book as it is now.
    pub fn book(&self) -> &Book {
        &self.story.book
    }

    /// The words at which reading ended, and the bytes behind them, if it did before the tape.
    pub fn unread(&self) -> (&'a [u32], &'a [u8]) {
        match &self.ends {
            Some(ends) => (&self.day.words()[ends.word..], self.day.stray()),
            None => (&[], &[]),
        }
    }

    /// Runs on up to the end of the day, its roll included: what is noted of it, or nothing where no more is to
    /// be read. So many words of the other tape are read already.
    pub fn next_day(&mut self, meter: &mut Meter, other: usize) -> io::Result<Option<Record>> {
        if self.over {
            return Ok(None);
        }
        let today = self.book().day;
        while !self.is_read() && self.book().day == today {
            meter.at(self.at + other);
            match self.story.read(&self.day.words()[self.at..], self.at, Stands::default())? {
                Some(count) => self.at += count,
                None => {
                    self.over = true;
                    break;
                }
            }
        }
        self.over |= self.is_read();
        let mut record = self.record.take();
        self.ends = record.ends.take();
        Ok(Some(record))
    }

    /// Is the tape read to its end?
    fn is_read(&self) -> bool {
        self.at == self.day.words().len() && self.day.stray().is_empty()
    }
}
