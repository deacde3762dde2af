//! The lines of a text, read block by block: no more of it is in memory than a block, or its longest line.

use crate::kind::{Kind, Looked, LOOKED_AT};
use crate::source::{Blocks, Source, BLOCK};

/// A byte-order mark, which may stand before the first line.
const MARK: &[u8] = "\u{feff}".as_bytes();
/// A byte in each of the eight of a word: 1, and its highest bit.
const ONES: u64 = 0x0101_0101_0101_0101;
const HIGHEST: u64 = 0x8080_8080_8080_8080;

/// The lines of a text, one after another.
#[derive(Debug)]
pub struct Lines<'a> {
    blocks: Blocks<'a>,
    buffer: Vec<u8>,
    /// What is read and not yet passed over.
    from: usize,
    to: usize,
    /// Is all read?
    over: bool,
    /// The number of the last line.
    number: usize,
    /// What was found in the blocks, where they are looked at.
    looked: Option<Looked>,
}

/// The number of a line, and its bytes.
pub type Line<'a> = (usize, &'a [u8]);

impl<'a> Lines<'a> {
    /// The lines of a source that is known to be text.
    pub fn of(source: &'a Source) -> Lines<'a> {
        let blocks = source.blocks();
        let buffer = vec![0; BLOCK];
        Lines { blocks, buffer, from: 0, to: 0, over: false, number: 0, looked: None }
    }

    /// The lines of a source that is looked at as it is read: where it is no text, that is an error, with what
    /// it is.
    pub fn looked_at(source: &'a Source) -> Lines<'a> {
        Lines { looked: Some(Looked::default()), ..Lines::of(source) }
    }

    /// What it is of.
    pub fn source(&self) -> &'a Source {
        self.blocks.source()
    }

    /// Passes over a byte-order mark at the beginning.
    pub fn pass_mark(&mut self) -> Result<(), String> {
        while self.to < MARK.len() && !self.over {
            self.fill()?;
        }
        if self.buffer[self.from..self.to].starts_with(MARK) {
            self.from += MARK.len();
        }
        Ok(())
    }

    /// The next line without its end, if there is one.
    pub fn line(&mut self) -> Result<Option<Line<'_>>, String> {
        Ok(self.line_with_end()?.map(|(number, line)| (number, without_end(line))))
    }

    /// The next line with its end, if there is one.
    pub fn line_with_end(&mut self) -> Result<Option<Line<'_>>, String> {
        let mut looked = 0;
        let to = loop {
            let rest = &self.buffer[self.from..self.to];
            if let Some(at) = line_end(&rest[looked..]) {
                break self.from + looked + at + 1;
            }
            looked = rest.len();
            match (self.over, looked) {
                (true, 0) => return Ok(None),
                (true, _) => break self.to,
                _ => self.fill()?,
            }
        };
        let line = &self.buffer[self.from..to];
        self.from = to;
        self.number += 1;
        Ok(Some((self.number, line)))
    }

    /// The number of the last line.
    pub fn number(&self) -> usize {
        self.number
    }

    /// Looks at all that is left, in whatever lines: where the source is no text, that is an error, with what it is.
    pub fn look(mut self) -> Result<(), String> {
        while !self.over {
            self.from = self.to;
            self.fill()?;
        }
        Ok(())
    }

    /// Reads a block behind what is left.
    fn fill(&mut self) -> Result<(), String> {
        self.buffer.copy_within(self.from..self.to, 0);
        (self.from, self.to) = (0, self.to - self.from);
        if self.to == self.buffer.len() {
            self.buffer.resize(2 * self.to, 0);
        }
        let read = self.blocks.read(&mut self.buffer[self.to..])?;
        let Some(looked) = &mut self.looked else {
            self.to += read;
            self.over = read == 0;
            return Ok(());
        };
        match read {
            0 => looked.end(),
            _ => looked.at(&self.buffer[self.to..self.to + read]),
        }
        self.to += read;
        self.over = read == 0;
        if looked.is_text() {
            return Ok(());
        }
        Err(self.no_text())
    }

    /// What the source is that is no text; the rest of it is looked at too.
    fn no_text(&mut self) -> String {
        let mut looked = self.looked.take().unwrap_or_default();
        while !self.over && !looked.is_known() {
            match self.blocks.read(&mut self.buffer) {
                Ok(0) => {
                    self.over = true;
                    looked.end();
                }
                Ok(read) => looked.at(&self.buffer[..read]),
                Err(error) => return error,
            }
        }
        let mut first = vec![0; LOOKED_AT];
        let (mut read, mut blocks) = (0, self.source().blocks());
        while read < LOOKED_AT {
            match blocks.read(&mut first[read..]) {
                Ok(0) => break,
                Ok(more) => read += more,
                Err(error) => return error,
            }
        }
        is_no_text(self.source().name(), &looked.kind(&first[..read]))
    }
}

/// What is said of a file of a kind that is not text.
pub fn is_no_text(file: &str, kind: &Kind) -> String {
    match kind {
        Kind::Neither(what) => {
            format!("{file}: this is neither the text form nor the words of a tape: {what}")
        }
        _ => format!(
            "{file}: these are the words of a tape and not text: `tape read` turns them into text"
        ),
    }
}

/// A line without its end.
fn without_end(line: &[u8]) -> &[u8] {
    match line {
        [line @ .., b'\r', b'\n'] | [line @ .., b'\n'] => line,
        line => line,
    }
}

/// The place of the first line end.
fn line_end(bytes: &[u8]) -> Option<usize> {
    place_of_byte(b'\n', bytes)
}

/// The place of the first of these bytes, looked for eight bytes at a time.
pub fn place_of_byte(wanted: u8, bytes: &[u8]) -> Option<usize> {
    let eights = bytes.chunks_exact(8);
    let rest = eights.remainder();
    for (at, eight) in eights.enumerate() {
        let eight = eight.try_into().map(u64::from_le_bytes).unwrap_or_default();
        let other = eight ^ (ONES * u64::from(wanted));
        let found = other.wrapping_sub(ONES) & !other & HIGHEST;
        if found != 0 {
            return Some(8 * at + found.trailing_zeros() as usize / 8);
        }
    }
    let at = rest.iter().position(|byte| *byte == wanted)?;
    Some(bytes.len() - rest.len() + at)
}

#[cfg(test)]
mod tests {
    use super::*;

    /// The lines of these bytes, as they are and as the standard library has them.
    fn both(text: &str, marked: bool) -> [Vec<String>; 2] {
        let source = Source::held("x", text.as_bytes().to_vec());
        let mut lines = Lines::looked_at(&source);
        if marked {
            lines.pass_mark().unwrap();
        }
        let mut found = Vec::new();
        while let Some((number, line)) = lines.line().unwrap() {
            found.push(String::from_utf8(line.to_vec()).unwrap());
            assert_eq!(number, found.len());
        }
        let text = if marked { text.strip_prefix('\u{feff}').unwrap_or(text) } else { text };
        [found, text.lines().map(String::from).collect()]
    }

    #[test]
    fn lines_are_those_of_the_text() {
        let long = "x".repeat(3 * BLOCK + 5);
        let many: String = (0..40_000).map(|at| format!("trade 0 1 2 {at}\r\n")).collect();
        let cut = format!("{}\u{7d04}\n\u{5b9a}", "y".repeat(BLOCK - 1));
        for text in [
            "",
            "\n",
            "a",
            "a\n\nb",
            "a\r\nb\r",
            "\r\n\n",
            "\u{feff}a\n",
            "\u{feff}",
            &long,
            &many,
            &cut,
        ] {
            for marked in [false, true] {
                let [found, wanted] = both(text, marked);
                assert!(found == wanted, "{:?}", text.chars().take(20).collect::<String>());
            }
        }
    }

    #[test]
    fn a_line_end_is_found_wherever_it_is() {
        for length in 0..40 {
            for at in 0..length {
                let mut bytes = vec![b'\n' + 1; length];
                bytes[at] = b'\n';
                assert_eq!(line_end(&bytes), Some(at));
                bytes[length - 1] = b'\n';
                assert_eq!(line_end(&bytes), Some(at));
            }
            assert_eq!(line_end(&vec![0x8a; length]), None);
        }
    }

    #[test]
    fn what_is_no_text_is_told_behind_many_lines() {
        let good = "close\n".repeat(30_000);
        let source = Source::held("x", [good.as_bytes(), b"# \xe9\n", good.as_bytes()].concat());
        let mut lines = Lines::looked_at(&source);
        let error = loop {
            match lines.line() {
                Ok(line) => assert!(line.is_some()),
                Err(error) => break error,
            }
        };
        assert!(error.contains("not in UTF-8, by line 30001: save it as UTF-8"), "{error}");
    }
}
