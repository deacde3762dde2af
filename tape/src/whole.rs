//! A day whose words are all in memory, for what goes to and fro in them.

use crate::input::{Day, Stands};
use crate::reading::Reading;

/// A day that is read to its end, with the places of all its lines.
#[derive(Debug)]
pub struct Whole<'a> {
    day: &'a Day,
    reading: Reading<'a>,
}

impl<'a> Whole<'a> {
    /// Reads a day.
    pub fn of(day: &'a Day) -> Result<Whole<'a>, String> {
        let mut reading = day.reading();
        reading.read_all()?;
        Ok(Whole { day, reading })
    }

    /// The day that it is of.
    pub fn day(&self) -> &'a Day {
        self.day
    }

    /// All its words.
    pub fn words(&self) -> &[u32] {
        self.reading.words()
    }

    /// The bytes behind the last whole word.
    pub fn stray(&self) -> &[u8] {
        self.reading.stray()
    }

    /// Where the instruction that begins at a word stands; the file is named where there are several.
    pub fn stands(&self, word: usize) -> Stands<'a> {
        self.day.shown(self.reading.stands_at(word))
    }

    /// A word with where it stands: `word 9, line 10`, and the file where there are several.
    pub fn named(&self, word: usize) -> String {
        self.day.named(word, self.reading.stands_at(word))
    }
}
