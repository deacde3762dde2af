//! A tape run on a fresh book up to a moment: before a word, at the end of a day, or at its own end.

use crate::batch::Batch;
use crate::input::Day;
use crate::json::{Name, Object};
use crate::known::Known;
use crate::measure::counted;
use crate::progress::Meter;
use crate::reading::Reading;
use settlement_day::{tape, Book, Instruction, Phase};
use std::io::Write;

/// The moment up to which a tape is run.
#[derive(Clone, Copy, Debug, Default, PartialEq, Eq)]
pub enum When {
    /// All that can be read.
    #[default]
    End,
    /// Before the instruction that begins at a word.
    Before(usize),
    /// Before the roll that ends a day, or at the tape's end if it is that day then.
    EndOf(u16),
    /// The end of the last day that was closed.
    LastClosed,
}

/// A book as the tape has brought it to a moment.
pub struct Stood {
    pub book: Book,
    /// The word at which the tape stands, by its name, and its line where that stands in a text.
    pub word: usize,
    named: String,
    line: Option<usize>,
    /// The names, and the dates of the days up to then.
    pub known: Known,
    /// Is it before an instruction?
    before: bool,
    /// Did reading end there by a refusal?
    ended: bool,
}

impl Stood {
    /// The moment in words, with the line where it stands in a text.
    pub fn moment(&self) -> String {
        if !self.before && !self.ended {
            return "at the end of the tape".to_string();
        }
        let at = if self.before { "before" } else { "where reading ends, at" };
        format!("{at} {}", self.named)
    }

    /// Did reading end there by a refusal?
    pub fn ended(&self) -> bool {
        self.ended
    }

    /// The line of the instruction at which the tape stands, if it stands in a text.
    pub fn line(&self) -> Option<usize> {
        self.line.filter(|_| self.before || self.ended)
    }

    /// The phase of the book.
    pub fn phase(&self) -> &'static str {
        self.book.phase.name().unwrap_or("no phase")
    }

    /// Where it stands, as JSON has it.
    pub fn at(&self) -> At {
        At { day: self.book.day, phase: self.phase(), word: self.word, line: self.line() }
    }
}

/// Where a tape stood, as an object of JSON has it: the day and the phase of the book, the word, and its line
/// where that stands in a text.
#[derive(Clone, Copy, Debug, PartialEq, Eq)]
pub struct At {
    pub day: u16,
    pub phase: &'static str,
    pub word: usize,
    pub line: Option<usize>,
}

impl At {
    /// Its fields.
    pub fn tell(&self, object: &mut Object<'_, impl Write>) {
        object.day(self.day).field("phase", Name(self.phase));
        object.field("word", self.word).optional("line", self.line);
    }
}

/// Runs a tape up to a moment; an error is that there is no such moment, or that the tape cannot be read.
pub fn run(day: &Day, when: When) -> Result<Stood, String> {
    let (mut book, mut batch) = (Book::fresh(), Batch::default());
    let mut known = Known::of(&day.names);
    let mut closed = None;
    let (mut reading, mut meter) = (day.reading(), Meter::of_words(day.words()));
    let until = if let When::Before(word) = when { word } else { usize::MAX };
    while reading.more()? && reading.word() < until {
        let at = reading.word();
        let is_left = |instruction: &Instruction, end| is_roll(instruction) || until - at < end;
        let Ok(used) = batch.make(&mut book, reading.words(), is_left) else { break };
        meter.after(batch.len(), at);
        if used > 0 {
            reading.pass(used);
            continue;
        }
        let Ok((instruction, count)) = tape::read(reading.words()) else { break };
        if until - at < count {
            return Err(inside(&instruction, at, count));
        }
        // A roll: the book before it is that at the day's end.
        let before = book.clone();
        let Ok(used) = batch.make(&mut book, &reading.words()[..count], |_, _| false) else {
            break;
        };
        if before.day != book.day {
            known.done(&instruction);
            let end = Moment::of(day, &mut reading);
            if when == When::EndOf(before.day) {
                return Ok(end.stood(before, known, true, false));
            }
            closed = Some((before, end));
        }
        reading.pass(used);
    }
    let left = reading.more()?;
    let before = matches!(when, When::Before(_));
    let stood = Moment::of(day, &mut reading).stood(book, known, before, left && !before);
    reached(stood, when, closed)
}

/// Does the instruction end a day?
fn is_roll(instruction: &Instruction) -> bool {
    matches!(instruction, Instruction::Roll { .. })
}

/// Where a tape stands: the next word, by its name, and its line where that stands in a text.
struct Moment {
    word: usize,
    named: String,
    line: Option<usize>,
}

impl Moment {
    /// Where a day that is read stands.
    fn of(day: &Day, reading: &mut Reading) -> Moment {
        let (word, stands) = (reading.word(), reading.stands());
        Moment { word, named: day.named(word, stands), line: stands.line }
    }

    /// The book as the tape has brought it there.
    fn stood(self, book: Book, known: Known, before: bool, ended: bool) -> Stood {
        let Moment { word, named, line } = self;
        Stood { book, word, named, line, known, before, ended }
    }
}

/// The moment that is wanted, where the tape has been run as far as it goes; `closed` is the book at the
/// end of the last day that was closed, and where its roll stands.
fn reached(stood: Stood, when: When, closed: Option<(Book, Moment)>) -> Result<Stood, String> {
    match (when, closed) {
        (When::Before(word), _) if stood.word < word => {
            Err(format!("--at {word}: reading ends at word {}", stood.word))
        }
        (When::EndOf(day), _) if stood.book.day != day => {
            let last = stood.known.day(stood.book.day);
            Err(format!("--day {day}: the tape ends on day {last}"))
        }
        (When::LastClosed, Some((book, end))) if stood.book.phase == Phase::TAKING => {
            Ok(end.stood(book, stood.known, true, false))
        }
        _ => Ok(stood),
    }
}

/// What is said of a word that begins no instruction.
fn inside(instruction: &Instruction, at: usize, count: usize) -> String {
    let (name, words) = (instruction.name(), counted(count, "word"));
    format!(
        "--at needs the first word of an instruction: {name} begins at word {at} and has {words}"
    )
}
