//! What is wrong with a text, and where: line and column, each from 1. Of many faults the first are
//! kept and the others counted, so that a text that is wrong throughout takes no more room than
//! another.

use crate::measure::Grouped;
use std::fmt;

/// The most faults that are told one by one.
pub const MOST_TOLD: usize = 12;
/// The most letters of a word that are shown.
const MOST_SHOWN: usize = 40;

/// Something wrong at a place of a text.
#[derive(Clone, Debug, PartialEq, Eq)]
pub struct Fault {
    pub line: usize,
    pub column: usize,
    pub what: String,
}

impl Fault {
    /// The fault with the file that it is in, as editors take a place.
    pub fn in_file(&self, file: &str) -> String {
        let Fault { line, column, what } = self;
        format!("{file}:{line}:{column}: {what}")
    }
}

impl fmt::Display for Fault {
    fn fmt(&self, text: &mut fmt::Formatter) -> fmt::Result {
        write!(text, "line {}, column {}: {}", self.line, self.column, self.what)
    }
}

/// The first faults of a text, and how many there are in all.
#[derive(Clone, Debug, Default, PartialEq, Eq)]
pub struct Faults {
    pub first: Vec<Fault>,
    pub count: usize,
}

impl Faults {
    /// Is there none?
    pub fn is_empty(&self) -> bool {
        self.count == 0
    }

    /// Counts a fault, and keeps it if it is one of the first.
    pub fn push(&mut self, fault: Fault) {
        self.count += 1;
        if self.first.len() < MOST_TOLD {
            self.first.push(fault);
        }
    }

    /// The faults, a line each with the file, and how many are not among them; `one` and `many` name
    /// what they are.
    pub fn listed(&self, file: &str, [one, many]: [&str; 2]) -> Vec<String> {
        let mut lines: Vec<String> = self.first.iter().map(|fault| fault.in_file(file)).collect();
        match self.count - self.first.len() {
            0 => {}
            1 => lines.push(format!("{file}: 1 more {one} is not listed")),
            more => {
                lines.push(format!("{file}: {} more {many} are not listed", Grouped(more as i128)))
            }
        }
        lines
    }
}

impl From<Fault> for Faults {
    fn from(fault: Fault) -> Faults {
        Faults { first: vec![fault], count: 1 }
    }
}

impl Extend<Fault> for Faults {
    fn extend<T: IntoIterator<Item = Fault>>(&mut self, faults: T) {
        faults.into_iter().for_each(|fault| self.push(fault));
    }
}

/// A word in quotes; of a long one the beginning, and how long it is.
pub fn shown(word: &str) -> String {
    match word.char_indices().nth(MOST_SHOWN) {
        None => format!("{word:?}"),
        Some((end, _)) => {
            let letters = Grouped(word.chars().count() as i128);
            format!("{:?}.. ({letters} letters)", &word[..end])
        }
    }
}

/// A word of a line, and the column of its first letter.
#[derive(Clone, Copy, Debug, PartialEq, Eq)]
pub struct Word<'a> {
    pub text: &'a str,
    pub line: usize,
    pub column: usize,
}

impl Word<'_> {
    /// A fault at this word.
    pub fn fault(&self, what: String) -> Fault {
        Fault { line: self.line, column: self.column, what }
    }
}

/// The words of a line before `#`, each with its column.
pub fn words_of(line: &str, number: usize) -> Words<'_> {
    let rest = line.split('#').next().unwrap_or_default();
    Words { rest, line: number, before: 0 }
}

/// The words of a line, one after another.
#[derive(Clone, Debug)]
pub struct Words<'a> {
    rest: &'a str,
    line: usize,
    /// The letters of the line before the rest.
    before: usize,
}

impl<'a> Iterator for Words<'a> {
    type Item = Word<'a>;

    fn next(&mut self) -> Option<Word<'a>> {
        let from = self.rest.trim_start();
        self.before += self.rest[..self.rest.len() - from.len()].chars().count();
        let end = from.find(char::is_whitespace).unwrap_or(from.len());
        let (text, rest) = from.split_at(end);
        self.rest = rest;
        let word = Word { text, line: self.line, column: self.before + 1 };
        self.before += text.chars().count();
        (!text.is_empty()).then_some(word)
    }
}

#[cfg(test)]
mod tests {
    use super::*;

    #[test]
    fn words_have_their_columns() {
        let words: Vec<Word> = words_of("  trade\t0 円 12 # note", 7).collect();
        let found: Vec<(&str, usize)> = words.iter().map(|word| (word.text, word.column)).collect();
        assert_eq!(found, [("trade", 3), ("0", 9), ("円", 11), ("12", 13)]);
        assert!(words.iter().all(|word| word.line == 7));
        assert_eq!(words_of("# nothing", 1).count(), 0);
        assert_eq!(words_of("a", 1).count(), 1);
    }

    #[test]
    fn the_words_of_a_long_line_take_time_by_its_length() {
        let line = "円 ".repeat(1_000_000);
        assert_eq!(words_of(&line, 1).last().map(|word| word.column), Some(1_999_999));
    }

    #[test]
    fn of_many_faults_the_first_are_kept() {
        let mut faults = Faults::default();
        let fault = |line| Fault { line, column: 1, what: "wrong".to_string() };
        faults.extend((1..=MOST_TOLD).map(fault));
        assert_eq!(faults.listed("x", ["error", "errors"]).len(), MOST_TOLD);
        faults.push(fault(13));
        let listed = faults.listed("x", ["error", "errors"]);
        assert_eq!(listed.last().unwrap(), "x: 1 more error is not listed");
        faults.extend((14..=200_000).map(fault));
        assert_eq!((faults.first.len(), faults.count), (MOST_TOLD, 200_000));
        let listed = faults.listed("x", ["error", "errors"]);
        assert_eq!(listed.len(), MOST_TOLD + 1);
        assert_eq!(listed.last().unwrap(), "x: 199,988 more errors are not listed");
    }

    #[test]
    fn a_long_word_is_cut() {
        assert_eq!(shown("16"), "\"16\"");
        assert_eq!(shown(&"円".repeat(40)), format!("\"{}\"", "円".repeat(40)));
        let long = shown(&"円".repeat(1_000));
        assert_eq!(long, format!("\"{}\".. (1,000 letters)", "円".repeat(40)));
    }
}
