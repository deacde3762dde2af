//! All calls of a folder from its first journal on: as the text of a tape, and as a story.

use crate::call::{records, Call, Record, FAILED};
use crate::folder::{self, Numbers};
use crate::orders::failing;
use ::tape::batch::Batch;
use ::tape::block::Block;
use ::tape::dealt::Dealt;
use ::tape::facts::{Fact, Told};
use ::tape::input::Stands;
use ::tape::known::Known;
use ::tape::measure::{counted, Face};
use ::tape::story::Story;
use ::tape::telling::{json, text};
use ::tape::text::line_of;
use ::tape::units::Walk;
use settlement_day::{
    calls, tape, Book, Instruction, Status, Ticket, ISSUES, OUTPUT_WORDS, WRITER_WORDS,
};
use std::cell::RefCell;
use std::io::{self, Write};
use std::path::Path;

/// The calls of a folder, and the book before the first of them.
#[derive(Clone, Debug)]
pub struct History {
    /// The number of the snapshot with which it begins.
    pub first: u32,
    pub begins: Book,
    pub calls: Vec<Call>,
    /// A line for each file.
    pub files: Vec<String>,
    /// The book after all calls.
    pub book: Book,
}

/// Reads a folder from the oldest journal behind which none is missing, and looks whether each snapshot is
/// the book of the one before it and its journal.
pub fn read(folder: &Path) -> Result<History, String> {
    let newest = folder::newest(folder)?;
    let Numbers { snapshots, journals } = folder::numbers(folder)?;
    let there = |number: &u32| snapshots.contains(number) && journals.contains(number);
    let first = (0..=newest).rev().take_while(there).last().unwrap_or(newest);
    let begins = folder::book(folder, first)?;
    let mut history = History {
        first,
        begins: begins.clone(),
        calls: Vec::new(),
        files: Vec::new(),
        book: begins,
    };
    for number in first..=newest {
        history.add(folder, number, newest)?;
    }
    Ok(history)
}

impl History {
    /// Adds the snapshot and the journal of a number.
    fn add(&mut self, folder: &Path, number: u32, newest: u32) -> Result<(), String> {
        let book = folder::book(folder, number)?;
        let (snapshot, path) = (folder::snapshot(folder, number), folder::journal(folder, number));
        if book != self.book {
            return Err(format!(
                "{} is not the book of the snapshot and the journal before it: one of the three is of \
                 another folder; put them back from one copy",
                snapshot.display()
            ));
        }
        let found = folder::journal_of(&folder::read(&path)?);
        let torn = found.torn > 0 && number < newest;
        let torn = torn.then(|| "its last record is not whole".to_string());
        if let Some(why) = found.damaged.or(torn) {
            return Err(format!("{}: {why}", path.display()));
        }
        self.book = folder::replayed(book, &found.calls)
            .map_err(|why| format!("{}: {why}", path.display()))?;
        let phase = self.book.phase.name().unwrap_or("no phase");
        let calls = counted(found.calls.len(), "record");
        let torn = match found.torn {
            0 => String::new(),
            torn => format!(", and {} of one that is not whole", counted(torn, "byte")),
        };
        self.files.push(format!(
            "snapshot-{number} and journal-{number}: whole, {calls}{torn}; then day {}, {phase}",
            self.book.day
        ));
        self.calls.extend(found.calls);
        Ok(())
    }

    /// Where it begins, if that is not a fresh book.
    fn beginning(&self) -> Option<String> {
        let (day, phase) = (self.begins.day, self.begins.phase.name().unwrap_or("no phase"));
        let first = self.first;
        (self.begins != Book::fresh()).then(|| {
            format!(
                "begins with snapshot-{first}, day {day}, {phase}: journals before it are not here"
            )
        })
    }

    /// The text of a tape; a comment stands where a lift stood.
    pub fn tape(&self, out: &mut dyn Write) -> io::Result<()> {
        let lifts = self.calls.iter().filter(|call| matches!(call, Call::Commit(_))).count();
        if let Some(beginning) = self.beginning() {
            writeln!(out, "# this tape {beginning}")?;
        }
        if lifts > 0 {
            writeln!(
                out,
                "# {} stood where a comment says so; a tape has none, so that what follows may be \
                 answered otherwise",
                counted(lifts, "lift")
            )?;
        }
        for call in &self.calls {
            match call {
                Call::Tape { instruction, quotes } => {
                    writeln!(out, "{}", line_of(instruction, quotes))?
                }
                Call::Commit(_) => writeln!(out, "# a lift: {}", call.line())?,
            }
        }
        Ok(())
    }

    /// The story: what each call did, day by day. A word's number is that of the tape's words.
    pub fn explain(&self, as_json: bool, out: &mut dyn Write) -> io::Result<()> {
        let out = RefCell::new(Block::before(out));
        if let (Some(beginning), false) = (self.beginning(), as_json) {
            writeln!(out.borrow_mut(), "The story {beginning}\n")?;
        }
        let mut begun = false;
        let mut sink = |told: &Told| {
            let mut out = out.borrow_mut();
            if as_json {
                return json::tell(&mut *out, told, Stands::default());
            }
            if begun && matches!(told.fact, Fact::Day { .. }) {
                writeln!(out)?;
            }
            begun = true;
            text::tell(&mut *out, told, Stands::default())
        };
        let mut story = begin(&self.begins, &mut sink);
        story.fact(&Fact::Day { day: self.begins.day, turn: self.begins.turn })?;
        let mut word = 0;
        for call in &self.calls {
            match call {
                Call::Tape { instruction, quotes } => {
                    word += instructed(&mut story, instruction, quotes, word)?;
                }
                Call::Commit(ticket) => lift(&mut story, ticket, |line, object| {
                    let told = if as_json { object } else { line };
                    out.borrow_mut().write_all(told.as_bytes())
                })?,
            }
        }
        story.end()?;
        out.into_inner().flush()
    }
}

/// A story that begins with a book, which may be in the middle of a day.
fn begin<'a>(book: &Book, sink: &'a mut ::tape::story::Sink<'a>) -> Story<'a> {
    let issues = 0..ISSUES as u32;
    let mut handed = [(0, 0); ISSUES];
    for issue in issues.clone() {
        let is_handed = |k: &u32| calls::status(book, issue, *k) == Ok(Status::Handed);
        let units =
            (0..).take_while(is_handed).map_while(|k| calls::unit(book, issue, k).ok().flatten());
        handed[issue as usize] =
            units.fold((0, 0), |(count, lots), unit| (count + 1, lots + u64::from(unit.lots)));
    }
    let dealt = |issue| match book.lifts(issue).next() {
        None => Dealt::of(book, issue),
        Some(_) => Dealt::default(),
    };
    let dealt = if book.deals_in_turn() { issues.map(dealt).collect() } else { Vec::new() };
    let (book, known) = (book.clone(), Known::default());
    let stands = Stands::default();
    let (batch, entries, runs) = (Batch::default(), Vec::new(), Vec::new());
    Story { book, batch, entries, handed, dealt, runs, word: None, stands, known, sink }
}

/// An instruction that begins at a word of the tape; answers how many words it has.
fn instructed(
    story: &mut Story,
    instruction: &Instruction,
    quotes: &[u32],
    word: usize,
) -> io::Result<usize> {
    let mut words = [0; WRITER_WORDS];
    let count = tape::write(instruction, quotes, &mut words).unwrap_or_default();
    story.word = Some(word);
    match instruction {
        Instruction::Cutoff if has_lifts(&story.book) => cut(story)?,
        _ => story.instruction(instruction, &words[..count])?,
    }
    Ok(count)
}

/// Does a lift stand?
fn has_lifts(book: &Book) -> bool {
    (0..ISSUES as u32).any(|issue| book.lifts(issue).next().is_some())
}

/// A lift, which is on no tape: `say` is given its line and the line of its object. Then the unit that it
/// handed, if it did, and the stock that waits.
fn lift(
    story: &mut Story,
    ticket: &Ticket,
    say: impl FnOnce(String, String) -> io::Result<()>,
) -> io::Result<()> {
    let Ticket { issue, unit, account, lots, .. } = *ticket;
    let day = story.book.day;
    let answer = calls::commit(&mut story.book, ticket, &mut [0; OUTPUT_WORDS]);
    let (place, handed) = story.handed[issue as usize];
    let face = Face(lots.into());
    let line = format!(
        "  lift: unit {unit} of issue {issue}, {face} for account {account}, becomes unit {place}, \
         before all that are not handed\n"
    );
    let object = ::tape::json::fact("lift", |object| {
        object.day(day).issue(issue).field("unit", unit).account("account", account);
        object.field("lots", lots).field("place", place);
    });
    say(line, object)?;
    story.word = None;
    // Units dealt in turn are told by their rounds; behind a lift these are no longer their places.
    if let Some(dealt) = story.dealt.get_mut(issue as usize) {
        *dealt = Dealt::default();
    }
    if answer.is_ok_and(|done| done.count > 0) {
        story.handed[issue as usize] = (place + 1, handed + u64::from(lots));
        let (first, last) = (place, place);
        story.fact(&Fact::Handed { issue, first, last, account, lots, turn: None })?;
    }
    waits(story, issue)
}

/// The stock that waits for the next unit of an issue, if there is some.
fn waits(story: &mut Story, issue: u32) -> io::Result<()> {
    let (unit, handed) = story.handed[issue as usize];
    let stock = story.book.delivered_total(issue).saturating_sub(handed);
    match calls::unit(&story.book, issue, unit).ok().flatten().filter(|_| stock > 0) {
        Some(next) => {
            let (account, lots) = (next.account, next.lots);
            story.fact(&Fact::Waits { issue, stock, unit, account, lots, turn: None })
        }
        None => Ok(()),
    }
}

/// A cutoff of a day with lifts: units fail in the lifted order, an account's full ones together.
fn cut(story: &mut Story) -> io::Result<()> {
    let instruction = Instruction::Cutoff;
    let mut output = [0; OUTPUT_WORDS];
    let answer = calls::call(&mut story.book, &instruction, &[], &mut output);
    story.fact(&Fact::Instruction { instruction, refusal: None })?;
    let records = records(&output, answer.map_or(0, |done| done.count));
    for of_issue in records.chunk_by(|one, next| one.issue == next.issue) {
        let issue = of_issue[0].issue;
        let handed = story.handed[issue as usize].0;
        let mut walk = Walk::along(failing(&story.book, issue, handed));
        for &Record { kind, from, to, lots, .. } in of_issue {
            let (first, last, units) = walk.take(lots);
            let fact = if kind == FAILED {
                Fact::Fails { issue, from, to, lots, first, last, units }
            } else {
                Fact::Partly { issue, unit: first, account: to, lots, lacks: walk.lacks() }
            };
            story.fact(&fact)?;
        }
    }
    if records.iter().all(|record| record.kind != FAILED) {
        story.fact(&Fact::NothingFails)?;
    }
    Ok(())
}
