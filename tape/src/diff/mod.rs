//! What differs between two tapes, day by day: their instructions, and what these changed. Both run on fresh books, a
//! day of the one beside the same day of the other.

mod common;
mod edits;
mod found;
mod json;
mod order;
mod side;
mod sums;
mod text;

use crate::fault::MOST_TOLD;
use crate::input::Day;
use crate::known::Known;
use crate::output::Untold;
use crate::progress::Meter;
use crate::whole::Whole;
use edits::{Edits, Part};
use found::Difference;
use side::{noting, Record, Side};
use std::cell::RefCell;
use std::io::{self, BufWriter, Write};
use sums::{same_books, Of, Sums};

/// The form in which differences are told. As text the first dozen of a kind and a day are listed, and how many more
/// there are; as JSON all.
#[derive(Clone, Copy, Debug, Default, PartialEq, Eq)]
pub enum Form {
    #[default]
    Text,
    Json,
}

/// Runs two tapes and tells what differs; answers whether anything does. Both are in memory as a whole, since
/// their instructions are looked for in each other.
pub fn diff(days: [&Day; 2], form: Form, out: &mut dyn Write) -> Result<bool, Untold> {
    let [one, other] = days.map(Whole::of);
    Ok(beside([&one?, &other?], form, out)?)
}

/// Runs two tapes beside each other.
fn beside(days: [&Whole; 2], form: Form, out: &mut dyn Write) -> io::Result<bool> {
    let records = [RefCell::default(), RefCell::default()];
    let [mut one, mut other] = [noting(&records[0]), noting(&records[1])];
    let sides =
        [Side::new(days[0], &records[0], &mut one), Side::new(days[1], &records[1], &mut other)];
    let mut diff = Diff {
        sides,
        telling: Telling::begun(days, form, out)?,
        same: None,
        alone: None,
        alike: true,
        differs: false,
    };
    diff.run()?;
    diff.end()?;
    diff.telling.end()?;
    Ok(diff.differs)
}

/// Two tapes as they are compared.
struct Diff<'a> {
    sides: [Side<'a>; 2],
    telling: Telling<'a>,
    /// The days with the same instructions that are still to be told, from the first to the last.
    same: Option<(u16, u16)>,
    /// The days that one tape has alone.
    alone: Option<Difference<'a>>,
    /// Do the books hold the same?
    alike: bool,
    differs: bool,
}

impl Diff<'_> {
    /// Runs both tapes to their ends, a day of each at a time.
    fn run(&mut self) -> io::Result<()> {
        let all = self.sides.iter().map(|side| side.words().0).sum();
        let mut meter = Meter::of_words(Some(all));
        for day in 0..=u16::MAX {
            let read = self.sides[1].words().1;
            let one = self.sides[0].next_day(&mut meter, read)?;
            let read = self.sides[0].words().1;
            let other = self.sides[1].next_day(&mut meter, read)?;
            match (one, other) {
                (Some(one), Some(other)) => self.day(day, [&one, &other])?,
                (Some(one), None) => self.alone(day, 0, &one),
                (None, Some(other)) => self.alone(day, 1, &other),
                (None, None) => break,
            }
        }
        Ok(())
    }

    /// A day that both tapes have.
    fn day(&mut self, day: u16, records: [&Record; 2]) -> io::Result<()> {
        let tapes = self.sides.each_ref().map(|side| side.day.words());
        let parts = [0, 1].map(|side| Part { tape: tapes[side], record: records[side] });
        let edits = Edits::of(parts);
        let changed = found::changed(parts, &edits);
        let was_alike = self.alike;
        let [one, other] = self.sides.each_ref().map(Side::book);
        self.alike = same_books(one, other);
        let again = self.alike && !(was_alike && edits.is_none());
        if edits.is_none() && changed.is_empty() && !again {
            let first = self.same.map_or(day, |(first, _)| first);
            self.same = Some((first, day));
            return Ok(());
        }
        self.told_same()?;
        self.differs = true;
        if edits.is_none() {
            self.telling.tell(None, &Difference::Same { first: day, last: day })?;
        } else {
            let only = edits.only.each_ref().map(Vec::len);
            let (moved, changed) = (edits.moved.len(), edits.changed.len());
            let cut = edits.cut.is_some();
            self.telling.tell(Some(day), &Difference::Edited { only, moved, changed, cut })?;
            found::edited(parts, &edits, &mut |found| self.telling.tell(Some(day), found))?;
        }
        changed.iter().try_for_each(|found| self.telling.tell(Some(day), found))?;
        if again {
            self.telling.tell(Some(day), &Difference::BooksSame)?;
        }
        Ok(())
    }

    /// A day that one tape has alone.
    fn alone(&mut self, day: u16, side: usize, record: &Record) {
        let Some(first) = record.lines.first() else { return };
        let found = Difference::Alone { side, first: day, last: day, count: 0, word: first.word };
        if let Difference::Alone { last, count, .. } = self.alone.get_or_insert(found) {
            (*last, *count) = (day, *count + record.lines.len());
        }
    }

    /// Tells the days with the same instructions that are still to be told.
    fn told_same(&mut self) -> io::Result<()> {
        match self.same.take() {
            Some((first, last)) => self.telling.tell(None, &Difference::Same { first, last }),
            None => Ok(()),
        }
    }

    /// The days that one tape has alone, and the books at the end where they differ.
    fn end(&mut self) -> io::Result<()> {
        self.told_same()?;
        if let Some(alone) = self.alone.take() {
            self.differs = true;
            self.telling.tell(None, &alone)?;
        }
        let [one, other] = self.sides.each_ref().map(Side::book);
        let numbers = self.sides.each_ref().map(|side| side.ends.as_ref().map(|ends| ends.refusal));
        let read = numbers[0] == numbers[1] && self.sides[0].unread() == self.sides[1].unread();
        let alike = same_books(one, other);
        if alike && read {
            return Ok(());
        }
        self.differs = true;
        let books = [one, other].map(|book| (book.day, book.phase.name().unwrap_or("no phase")));
        self.telling.tell(None, &Difference::End { books })?;
        if !read {
            let ends = self.sides.each_ref().map(|side| side.ends.as_ref());
            self.telling.tell(None, &Difference::ReadingEnds { ends })?;
        }
        let differing = Sums::of_book(one).differing(&Sums::of_book(other));
        for &(of, amounts) in &differing {
            self.telling.tell(None, &Difference::Sum { of, amounts })?;
        }
        let entries = differing.iter().any(|(of, _)| matches!(of, Of::Entry { .. }));
        if !entries && !one.ledger().eq(other.ledger()) {
            self.telling.tell(None, &Difference::Ledger)?;
        }
        Ok(())
    }
}

/// Where differences are told, and how many of the kind that is at work.
struct Telling<'a> {
    out: BufWriter<&'a mut dyn Write>,
    days: [&'a Whole<'a>; 2],
    /// The names, which are those of both.
    known: Known,
    form: Form,
    kind: Option<[&'static str; 2]>,
    lines: usize,
    /// How many things of the kind are not listed.
    more: usize,
}

impl<'a> Telling<'a> {
    /// Begins by telling which tape is which.
    fn begun(
        days: [&'a Whole<'a>; 2],
        form: Form,
        out: &'a mut dyn Write,
    ) -> io::Result<Telling<'a>> {
        let mut out = BufWriter::new(out);
        match form {
            Form::Text => text::head(&mut out, days)?,
            Form::Json => json::head(&mut out, days)?,
        }
        let known = Known::of(&days[0].day().names);
        Ok(Telling { out, days, known, form, kind: None, lines: 0, more: 0 })
    }

    /// Tells a difference, of a day or of the book at the end.
    fn tell(&mut self, day: Option<u16>, found: &Difference) -> io::Result<()> {
        if self.form == Form::Json {
            return json::tell(&mut self.out, self.days, &self.known, day, found);
        }
        let kind = text::kind(found);
        if kind != self.kind || kind.is_none() {
            self.rest()?;
            (self.kind, self.lines) = (kind, 0);
        }
        if self.lines == MOST_TOLD {
            self.more += found.count();
            return Ok(());
        }
        self.lines += 1;
        text::tell(&mut self.out, self.days, &self.known, day, found)
    }

    /// Says how many of the kind at work are not listed.
    fn rest(&mut self) -> io::Result<()> {
        match (self.kind, std::mem::take(&mut self.more)) {
            (Some(kind), more) if more > 0 => text::rest(&mut self.out, kind, more),
            _ => Ok(()),
        }
    }

    /// All is told.
    fn end(&mut self) -> io::Result<()> {
        self.rest()?;
        self.out.flush()
    }
}
