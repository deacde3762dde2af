//! The words of a day as they are read, one instruction after another: no more of them is in memory than a
//! block of a file gives.

use crate::bytes::hex_line;
use crate::fault::Faults;
use crate::input::{Day, Form, Part, Stands};
use crate::lines::Lines;
use crate::source::{Blocks, Source, BLOCK};
use crate::text::{Parser, Place, Put};
use settlement_day::WRITER_WORDS;

/// The words of a text that are read at once.
const MOST_WORDS: usize = BLOCK / 4;

/// A day as it is read. There are always the words of a whole instruction, if the tape has them; those at the
/// end of a block are carried over to the next.
#[derive(Debug)]
pub struct Reading<'a> {
    day: &'a Day,
    /// The words that are read: those passed over, then the others.
    words: Vec<u32>,
    at: usize,
    /// The tape's index of the first of them.
    first: usize,
    /// The bytes behind the last whole word, of the file that is open or at the tape's end.
    stray: Vec<u8>,
    /// The files that are begun, each with its first word, and the places of their lines.
    begun: Vec<Begun>,
    /// The file of the next word, among those begun, and the place among the file's.
    here: (usize, usize),
    open: Option<Open<'a>>,
    /// Where all words that are read stand, if they are of one file that has no lines.
    alike: Option<Stands<'a>>,
    /// Is all read?
    over: bool,
}

/// A file that is begun: its place among the day's, its first word, and the places of its lines that are read and
/// not passed over.
#[derive(Debug)]
struct Begun {
    part: usize,
    first: usize,
    places: Vec<Place>,
}

/// A file that is open.
#[derive(Debug)]
enum Open<'a> {
    Words(Blocks<'a>),
    Hex(Lines<'a>),
    Text(Lines<'a>, Parser<'a>),
}

impl<'a> Reading<'a> {
    /// A day at its beginning.
    pub fn of(day: &'a Day) -> Reading<'a> {
        Reading {
            day,
            words: Vec::new(),
            at: 0,
            first: 0,
            stray: Vec::new(),
            begun: Vec::new(),
            here: (0, 0),
            open: None,
            alike: None,
            over: false,
        }
    }

    /// Is there more to read, were it a word that is not whole? The words of an instruction are there then, if
    /// the tape has them.
    #[inline]
    pub fn more(&mut self) -> Result<bool, String> {
        while self.words.len() - self.at < WRITER_WORDS && !self.over {
            self.fill()?;
        }
        Ok(self.at < self.words.len() || !self.stray.is_empty())
    }

    /// The words that follow, at least those of an instruction if the tape has them.
    #[inline]
    pub fn words(&self) -> &[u32] {
        &self.words[self.at..]
    }

    /// The index of the next word.
    #[inline]
    pub fn word(&self) -> usize {
        self.first + self.at
    }

    /// The bytes behind the last whole word, once all before them are passed over.
    pub fn stray(&self) -> &[u8] {
        &self.stray
    }

    /// Passes over so many words.
    #[inline]
    pub fn pass(&mut self, count: usize) {
        self.at += count;
    }

    /// Where the instruction stands that begins at the next word, with the file.
    #[inline]
    pub fn stands(&mut self) -> Stands<'a> {
        match self.alike {
            Some(stands) => stands,
            None => self.stands_here(),
        }
    }

    /// The same, of files that may have lines.
    fn stands_here(&mut self) -> Stands<'a> {
        let word = self.word();
        let (mut file, mut line) = self.here;
        while self.begun.get(file + 1).is_some_and(|next| next.first <= word) {
            (file, line) = (file + 1, 0);
        }
        let Some(begun) = self.begun.get(file) else { return Stands::default() };
        // Of several lines that begin at a word, bytes of a word that is not whole, it is the first.
        let follows = |at: usize| {
            let (one, next) = (begun.places.get(at), begun.places.get(at + 1));
            one.zip(next).is_some_and(|(one, next)| next.word <= word && one.word < word)
        };
        while follows(line) {
            line += 1;
        }
        self.here = (file, line);
        self.stands_in(begun, begun.places.get(line).filter(|place| place.word <= word))
    }

    /// Reads all there is.
    pub(crate) fn read_all(&mut self) -> Result<(), String> {
        while !self.over {
            self.fill()?;
        }
        Ok(())
    }

    /// Where the instruction stands that begins at a word that is not passed over, with the file.
    pub(crate) fn stands_at(&self, word: usize) -> Stands<'a> {
        let after = self.begun.partition_point(|begun| begun.first <= word);
        let Some(begun) = after.checked_sub(1).map(|at| &self.begun[at]) else {
            return Stands::default();
        };
        let at = begun.places.partition_point(|place| place.word < word);
        let exact = begun.places.get(at).filter(|place| place.word == word);
        self.stands_in(begun, exact.or_else(|| begun.places.get(at.checked_sub(1)?)))
    }

    /// Where the line of a place stands.
    fn stands_in(&self, begun: &Begun, place: Option<&Place>) -> Stands<'a> {
        let file = Some(self.day.parts()[begun.part].source.name());
        let (line, column) = (place.map(|place| place.line), place.map(|place| place.column));
        Stands { file, line, column }
    }

    /// Reads on.
    fn fill(&mut self) -> Result<(), String> {
        self.forget();
        self.read_on()?;
        self.alike = match self.begun[..] {
            [ref one] if self.day.parts()[one.part].form != Form::Text => {
                Some(self.stands_in(one, None))
            }
            _ => None,
        };
        Ok(())
    }

    /// Reads on: a block of the file that is open, or the next one.
    fn read_on(&mut self) -> Result<(), String> {
        let (Some(open), Some(begun)) = (&mut self.open, self.begun.last_mut()) else {
            return self.next();
        };
        let (first, words, stray) = (self.first, &mut self.words, &mut self.stray);
        let more = match open {
            Open::Words(blocks) => words_on(blocks, words, stray)?,
            Open::Hex(lines) => hex_on(lines, words)?,
            Open::Text(lines, parser) => {
                text_on(lines, parser, first, &mut begun.places, words, stray)?
            }
        };
        if !more {
            self.open = None;
        }
        Ok(())
    }

    /// Opens the next file, if there is one.
    fn next(&mut self) -> Result<(), String> {
        let part = self.begun.last().map_or(0, |begun| begun.part + 1);
        let Some(Part { source, form, .. }) = self.day.parts().get(part) else {
            self.over = true;
            return Ok(());
        };
        let first = self.first + self.words.len();
        self.begun.push(Begun { part, first, places: Vec::new() });
        self.open = Some(match form {
            Form::Words => Open::Words(source.blocks()),
            Form::Hex => Open::Hex(Lines::of(source)),
            Form::Text => {
                let mut lines = Lines::of(source);
                lines.pass_mark()?;
                Open::Text(lines, Parser::by(&self.day.names))
            }
        });
        Ok(())
    }

    /// Forgets the words that are passed over, and the files and places before them.
    fn forget(&mut self) {
        self.stands_here();
        let (file, line) = std::mem::take(&mut self.here);
        self.begun.drain(..file);
        if let Some(begun) = self.begun.first_mut() {
            begun.places.drain(..line);
        }
        self.words.drain(..self.at);
        self.first += std::mem::take(&mut self.at);
    }
}

/// Reads a block of words; answers whether there may be more.
fn words_on(
    blocks: &mut Blocks,
    words: &mut Vec<u32>,
    stray: &mut Vec<u8>,
) -> Result<bool, String> {
    let before = stray.len();
    stray.resize(BLOCK, 0);
    let read = blocks.read(&mut stray[before..])?;
    stray.truncate(before + read);
    let whole = stray.len() / 4 * 4;
    let word = |four: &[u8]| u32::from_le_bytes([four[0], four[1], four[2], four[3]]);
    words.extend(stray.chunks_exact(4).map(word));
    stray.drain(..whole);
    Ok(read > 0)
}

/// Reads about a block of lines with hexadecimal words; answers whether there may be more.
fn hex_on(lines: &mut Lines, words: &mut Vec<u32>) -> Result<bool, String> {
    let (source, mut faults) = (lines.source(), Faults::default());
    let (before, mut more) = (words.len(), true);
    while more && words.len() < before + MOST_WORDS {
        match lines.line()? {
            Some((number, line)) => match std::str::from_utf8(line) {
                Ok(line) => hex_line(number, line, words, &mut faults),
                Err(_) => return Err(source.changed()),
            },
            None => more = false,
        }
    }
    unchanged(source, faults.is_empty(), more)
}

/// Reads about a block of lines of a text, the first of whose words has this index; answers whether there may be
/// more.
fn text_on(
    lines: &mut Lines,
    parser: &mut Parser,
    first: usize,
    places: &mut Vec<Place>,
    words: &mut Vec<u32>,
    stray: &mut Vec<u8>,
) -> Result<bool, String> {
    let source = lines.source();
    let (before, mut more) = (words.len(), true);
    while more && words.len() < before + MOST_WORDS {
        let Some((line, bytes)) = lines.line()? else {
            more = false;
            continue;
        };
        let Some((column, put)) = parser.line(line, bytes) else { continue };
        places.push(Place { word: first + words.len(), line, column });
        match put {
            Put::Words(put) => words.extend(put),
            Put::Byte(byte) => stray.push(byte),
        }
        if let [a, b, c, d] = stray[..] {
            words.push(u32::from_le_bytes([a, b, c, d]));
            stray.clear();
        }
    }
    unchanged(source, parser.is_right(), more)
}

/// What was right when a file was put into the day is so still; answers whether there may be more.
fn unchanged(source: &Source, right: bool, more: bool) -> Result<bool, String> {
    match right {
        true => Ok(more),
        false => Err(source.changed()),
    }
}

#[cfg(test)]
mod tests {
    use super::*;
    use crate::input::Taken;
    use crate::text::{of_tape, parse};

    /// A day of these texts.
    fn day(texts: &[&str]) -> Day {
        let mut day = Day::default();
        for (at, text) in texts.iter().enumerate() {
            day.add(&format!("{at}.txt"), text.as_bytes().to_vec(), Taken::Apart).unwrap();
        }
        day
    }

    #[test]
    fn words_and_places_are_those_of_the_text_whatever_is_passed_over_at_once() {
        let lines: String = (0..30_000)
            .map(|at| match at % 7 {
                0 => "  close # a day\n".to_string(),
                1 => "roll 1 300 100000 accrued 0\n".to_string(),
                2 => "\n# nothing\n".to_string(),
                3 => "word 50000001\n".to_string(),
                _ => format!("trade 0 1 2 {}\r\n", at + 1),
            })
            .collect();
        let text = format!("{lines}byte 1\nbyte 2\nbyte 3\nbyte 4\nbyte 5\nbyte 6\n");
        let parsed = parse(&text).unwrap();
        let day = day(&[&text]);
        assert_eq!(day.bytes(), Some(parsed.tape.len() as u64));
        // Of several lines at a word, bytes of one that is not whole, the first counts.
        let mut places = parsed.places;
        places.dedup_by_key(|place| place.word);
        let (mut reading, mut words) = (day.reading(), Vec::new());
        for (at, place) in places.iter().enumerate() {
            assert!(reading.more().unwrap());
            let stands = reading.stands();
            assert_eq!((reading.word(), stands.line), (place.word, Some(place.line)));
            assert_eq!(stands.column, Some(place.column));
            let count = places.get(at + 1).map_or(0, |next| next.word - place.word);
            words.extend(&reading.words()[..count]);
            reading.pass(count);
        }
        let tape = [crate::bytes::join(&words), reading.stray().to_vec()].concat();
        assert!(tape == parsed.tape, "the words differ");
        assert_eq!(reading.stray(), [5, 6]);
    }

    #[test]
    fn an_instruction_may_begin_in_one_file_and_end_in_the_next() {
        let day = day(&["word 10042000\n", "# nothing\n", "word 80000003\nclose\n", ""]);
        let mut reading = day.reading();
        assert!(reading.more().unwrap());
        assert_eq!((reading.words().len(), reading.stands().file), (3, Some("0.txt")));
        reading.pass(2);
        assert!(reading.more().unwrap());
        let stands = reading.stands();
        assert_eq!((stands.file, stands.line), (Some("2.txt"), Some(2)));
        reading.pass(1);
        assert!(!reading.more().unwrap());
        assert_eq!((reading.stands().file, reading.stands().line), (Some("3.txt"), None));
    }

    #[test]
    fn all_words_have_their_places_where_the_whole_is_read() {
        let day = day(&["close\n", "\n cutoff\nbyte 1\nbyte 2\n"]);
        let mut reading = day.reading();
        reading.read_all().unwrap();
        let at = |word| (reading.stands_at(word).file, reading.stands_at(word).line);
        let (first, second) = (Some("0.txt"), Some("1.txt"));
        assert_eq!(
            [0, 1, 2, 9].map(at),
            [(first, Some(1)), (second, Some(2)), (second, Some(3)), (second, Some(4))]
        );
        assert_eq!(of_tape(&[0, 0, 0, 0x50]), "close\n");
    }
}
