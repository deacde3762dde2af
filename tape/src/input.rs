//! What an input is: the text form, words as hexadecimal numbers, or the words of a tape; and the
//! files of a day as one tape.

use crate::bytes;
use crate::fault::Faults;
use crate::kind::{begins_as_words, kind_of, Kind};
use crate::lines::{is_no_text, Lines};
use crate::names::Names;
use crate::reading::Reading;
use crate::source::Source;
use crate::text::{Parser, Put};

/// How an input is taken.
#[derive(Clone, Copy, Debug, Default, PartialEq, Eq)]
pub enum Taken {
    /// As text or words: they are told apart.
    #[default]
    Apart,
    /// As words, whatever the bytes are.
    Words,
    /// As words that are hexadecimal numbers in text.
    Hex,
}

/// What a file of a day is.
#[derive(Clone, Copy, Debug, PartialEq, Eq)]
pub(crate) enum Form {
    Words,
    Hex,
    Text,
}

/// The text of a small file, or why it is none; the name is the file's.
pub fn text_of(file: &str, bytes: Vec<u8>) -> Result<String, String> {
    let kind = kind_of(&bytes);
    if kind != Kind::Text && !bytes.is_empty() {
        return Err(is_no_text(file, &kind));
    }
    String::from_utf8(bytes).map_err(|error| format!("{file}: {error}"))
}

/// What is wrong with a text, a line each.
pub fn errors(file: &str, faults: &Faults) -> String {
    faults.listed(file, ["error", "errors"]).join("\n")
}

/// The files of a day, one after the other, as one tape, and the names by which they are read and told. A text
/// is read to its end when it is put there, so that it is refused whole, and again when the day is read.
#[derive(Debug, Default)]
pub struct Day {
    /// The names of issues and accounts, and the date of day 0.
    pub names: Names,
    /// What is to be said of lines that are right.
    pub notes: Vec<String>,
    parts: Vec<Part>,
}

/// A file of a day: what it is, and how many bytes of the tape it gives, where that is known.
#[derive(Debug)]
pub(crate) struct Part {
    pub(crate) source: Source,
    pub(crate) form: Form,
    bytes: Option<u64>,
}

/// Where an instruction stands: in which file, if there are several or it is asked for, and at which
/// line and column where that is a text.
#[derive(Clone, Copy, Debug, Default, PartialEq, Eq)]
pub struct Stands<'a> {
    pub file: Option<&'a str>,
    pub line: Option<usize>,
    pub column: Option<usize>,
}

impl Day {
    /// A day of no files yet, by these names.
    pub fn by(names: Names) -> Day {
        Day { names, ..Day::default() }
    }

    /// The day of one file whose bytes are in memory.
    pub fn of(file: &str, bytes: Vec<u8>, taken: Taken) -> Result<Day, String> {
        let mut day = Day::default();
        day.add(file, bytes, taken)?;
        Ok(day)
    }

    /// Puts a file whose bytes are in memory behind those that are there.
    pub fn add(&mut self, file: &str, bytes: Vec<u8>, taken: Taken) -> Result<(), String> {
        self.put(Source::held(file, bytes), taken)
    }

    /// Puts a file behind those that are there. It must begin with a whole word.
    pub fn put(&mut self, mut source: Source, taken: Taken) -> Result<(), String> {
        if let Some(last) = self.parts.last_mut() {
            if last.length()? % 4 != 0 {
                let (name, file) = (last.source.name(), source.name());
                return Err(format!(
                    "{name}: its last word is not whole, so that {file} cannot follow it: give it last"
                ));
            }
        }
        let form = match taken {
            Taken::Hex => Form::Hex,
            Taken::Words => Form::Words,
            Taken::Apart if begins_as_words(source.first()) => Form::Words,
            Taken::Apart => Form::Text,
        };
        let bytes = match form {
            Form::Words => source.length(),
            Form::Hex => Some(hex(&mut source)?),
            Form::Text => Some(self.text(&mut source)?),
        };
        self.parts.push(Part { source, form, bytes });
        Ok(())
    }

    /// Reads a text to its end: the bytes of the tape that it gives, or what is wrong with it.
    fn text(&mut self, source: &mut Source) -> Result<u64, String> {
        source.keep()?;
        let (mut lines, mut parser) = (Lines::looked_at(source), Parser::by(&self.names));
        lines.pass_mark()?;
        let mut bytes = 0;
        while let Some((number, line)) = lines.line()? {
            bytes += match parser.line(number, line) {
                Some((_, Put::Words(words))) => 4 * words.len() as u64,
                Some((_, Put::Byte(_))) => 1,
                None => 0,
            };
        }
        let notes = parser.judge().map_err(|faults| errors(source.name(), &faults))?;
        self.notes.extend(notes.listed(source.name(), ["note", "notes"]));
        Ok(bytes)
    }

    /// Makes that it can be read more than once.
    pub fn keep(&mut self) -> Result<(), String> {
        self.parts.iter_mut().try_for_each(|part| part.length().map(|_| ()))
    }

    /// Its words as they are read, from the first on.
    pub fn reading(&self) -> Reading<'_> {
        Reading::of(self)
    }

    /// Its files.
    pub(crate) fn parts(&self) -> &[Part] {
        &self.parts
    }

    /// The names of its files.
    pub fn files(&self) -> Vec<String> {
        self.parts.iter().map(|part| part.source.name().to_string()).collect()
    }

    /// How many bytes the tape has, where that is known.
    pub fn bytes(&self) -> Option<u64> {
        self.parts.iter().map(|part| part.bytes).sum()
    }

    /// How many whole words the tape has, where that is known.
    pub fn words(&self) -> Option<usize> {
        self.bytes().map(|bytes| (bytes / 4) as usize)
    }

    /// A word with where it stands: `word 9, line 10`, and the file where there are several.
    pub fn named(&self, word: usize, stands: Stands) -> String {
        let Stands { file, line, .. } = self.shown(stands);
        let line = line.map(|line| format!("line {line}"));
        let place: Vec<String> = file.map(String::from).into_iter().chain(line).collect();
        let place = if place.is_empty() { String::new() } else { format!(", {}", place.join(" ")) };
        format!("word {word}{place}")
    }

    /// Where an instruction stands, as it is shown: the file is named where there are several.
    pub fn shown<'a>(&self, stands: Stands<'a>) -> Stands<'a> {
        Stands { file: stands.file.filter(|_| self.parts.len() > 1), ..stands }
    }
}

impl Part {
    /// How many bytes of the tape it gives; what can be read only once is kept, so that it is known.
    fn length(&mut self) -> Result<u64, String> {
        if self.bytes.is_none() {
            self.source.keep()?;
            self.bytes = self.source.length();
        }
        Ok(self.bytes.unwrap_or_default())
    }
}

/// Looks that a file is text, as far as its first bytes tell, and makes that it can be read again.
pub fn wants_text(source: &mut Source) -> Result<(), String> {
    if begins_as_words(source.first()) && !source.first().is_empty() {
        return Err(is_no_text(source.name(), &Kind::Words));
    }
    source.keep()
}

/// Looks that a file is the words of a tape; of another one it is told what it is.
pub fn wants_words(source: &mut Source) -> Result<(), String> {
    if begins_as_words(source.first()) {
        return Ok(());
    }
    source.keep()?;
    Lines::looked_at(source).look()?;
    let file = source.name();
    Err(format!("{file}: this is text and not the words of a tape: nothing to read"))
}

/// Reads hexadecimal words to their end: the bytes of the tape that they give, or what is wrong with them.
fn hex(source: &mut Source) -> Result<u64, String> {
    wants_text(source)?;
    let (mut words, mut faults, mut bytes) = (Vec::new(), Faults::default(), 0);
    let mut lines = Lines::looked_at(source);
    while let Some((number, line)) = lines.line()? {
        let text = std::str::from_utf8(line).unwrap_or_default();
        bytes::hex_line(number, text, &mut words, &mut faults);
        bytes += 4 * words.len() as u64;
        words.clear();
    }
    if faults.is_empty() {
        return Ok(bytes);
    }
    Err(errors(source.name(), &faults))
}

#[cfg(test)]
mod tests {
    use super::*;

    use crate::bytes::join;

    /// All bytes of a day.
    fn tape(day: &Day) -> Vec<u8> {
        let (mut reading, mut words) = (day.reading(), Vec::new());
        while reading.more().unwrap() && !reading.words().is_empty() {
            words.extend(reading.words());
            reading.pass(reading.words().len());
        }
        [&join(&words), reading.stray()].concat()
    }

    /// Where the words of these numbers stand, as it is shown.
    fn stands(day: &Day, words: usize) -> Vec<Stands<'_>> {
        let mut reading = day.reading();
        let mut stands = |_| {
            assert!(reading.more().unwrap());
            let stands = day.shown(reading.stands());
            reading.pass(usize::from(!reading.words().is_empty()));
            stands
        };
        (0..words).map(&mut stands).collect()
    }

    /// A text in Shift_JIS: 約定 in its comment.
    const SHIFT_JIS: &[u8] = b"trade 0 1 2 3\nclose # \x96\xf1\x92\xe8\n";

    #[test]
    fn a_file_of_another_encoding_is_words_only_where_that_is_said() {
        let error = Day::of("day.txt", SHIFT_JIS.to_vec(), Taken::Apart).unwrap_err();
        let start = "day.txt: this is neither the text form nor the words of a tape: it seems to";
        assert!(error.starts_with(start), "{error}");
        assert_eq!(tape(&Day::of("x", SHIFT_JIS.to_vec(), Taken::Words).unwrap()), SHIFT_JIS);
    }

    #[test]
    fn a_text_gives_the_tape_and_its_lines() {
        let day = Day::of("x", b"\nclose\n  cutoff\n".to_vec(), Taken::Apart).unwrap();
        assert_eq!(tape(&day), [0, 0, 0, 0x50, 0, 0, 0, 0x60]);
        let at = |line, column| Stands { file: None, line: Some(line), column: Some(column) };
        assert_eq!(stands(&day, 2), [at(2, 1), at(3, 3)]);
        assert_eq!(day.reading().stands().file, None);
        let error =
            Day::of("day.txt", b"close\nopen 1\nsell\n".to_vec(), Taken::Apart).unwrap_err();
        assert!(error.starts_with("day.txt:2:1: there is no instruction \"open\""), "{error}");
        assert!(error.contains("\nday.txt:3:1: there is no instruction \"sell\""), "{error}");
    }

    #[test]
    fn several_files_are_one_tape() {
        let mut day = Day::of("mon.txt", b"close\n".to_vec(), Taken::Apart).unwrap();
        day.add("tue.tape", vec![0, 0, 0, 0x60], Taken::Apart).unwrap();
        day.add("wed.txt", b"\nclose\nbyte 01\nbyte 02\n".to_vec(), Taken::Apart).unwrap();
        assert_eq!(tape(&day), [0, 0, 0, 0x50, 0, 0, 0, 0x60, 0, 0, 0, 0x50, 1, 2]);
        let stands = stands(&day, 4);
        let stands: Vec<_> = stands.iter().map(|stands| (stands.file, stands.line)).collect();
        let (mon, tue, wed) = (Some("mon.txt"), Some("tue.tape"), Some("wed.txt"));
        assert_eq!(stands, [(mon, Some(1)), (tue, None), (wed, Some(2)), (wed, Some(3))]);
        let error = day.add("thu.txt", b"close\n".to_vec(), Taken::Apart).unwrap_err();
        assert!(
            error.starts_with("wed.txt: its last word is not whole, so that thu.txt"),
            "{error}"
        );
    }

    #[test]
    fn what_is_wanted_as_text_or_as_words_is_told() {
        let words = text_of("x", vec![0, 0, 0, 0x50]).unwrap_err();
        assert!(words.contains("these are the words of a tape and not text"), "{words}");
        assert_eq!(wants_text(&mut Source::held("x", vec![0, 0, 0, 0x50])).unwrap_err(), words);
        let wanted = |bytes: &[u8]| wants_words(&mut Source::held("x", bytes.to_vec()));
        let text = wanted(b"close\n").unwrap_err();
        assert!(text.contains("this is text and not the words of a tape"), "{text}");
        assert!(wanted(SHIFT_JIS).unwrap_err().contains("neither"));
        assert_eq!((text_of("x", vec![]), wanted(b"")), (Ok("".into()), Ok(())));
    }
}
