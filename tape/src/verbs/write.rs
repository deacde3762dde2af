//! `tape write`: the text form into the words of a tape.

use super::{names_of, one_file, put_by, say, Ended, Verb};
use crate::bytes::NOT_SHOWN;
use crate::input::{wants_text, Day, Taken};
use crate::options::{Given, HEX, NAMES};
use crate::output::Untold;
use crate::source::Source;
use std::io::Write;

pub(super) const VERB: Verb = Verb {
    name: "write",
    usage: "\
tape write [--hex] [--names FILE] [TEXT]
        turns the text form into the words of a tape",
    options: &[HEX, NAMES],
    act,
};

fn act(given: &Given) -> Result<Ended, String> {
    let file = one_file(given)?;
    let names = names_of(given)?;
    let mut source = Source::open(file)?;
    wants_text(&mut source)?;
    let mut day = Day::by(names);
    day.put(source, Taken::Apart)?;
    day.notes.iter().for_each(|note| say(note));
    let hex = given.has(&HEX);
    if hex && day.bytes().is_some_and(|bytes| bytes % 4 != 0) {
        return Err(NOT_SHOWN.to_string());
    }
    put_by(given, |out| tell(&day, hex, out))
}

/// Writes all words of a day, as they are or as hexadecimal numbers.
fn tell(day: &Day, hex: bool, out: &mut impl Write) -> Result<(), Untold> {
    let mut reading = day.reading();
    while reading.more()? && !reading.words().is_empty() {
        let words = reading.words();
        words.iter().try_for_each(|word| match hex {
            true => writeln!(out, "{word:08x}"),
            false => out.write_all(&word.to_le_bytes()),
        })?;
        reading.pass(words.len());
    }
    Ok(out.write_all(reading.stray())?)
}
