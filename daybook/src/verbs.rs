//! What each verb does, and the status with which the command ends.

use crate::arguments::{completion, Verb, USAGE};
use crate::console::{self, Ended, Manner};
use crate::files::Disk;
use crate::history::{self, History};
use crate::store::{self, Opened};
use crate::{folder, lock};
use settlement_day::Book;
use std::io::{self, BufWriter, IsTerminal, Write};
use std::path::Path;
use tape::measure::{counted, Grouped};

/// The statuses.
pub const DONE: u8 = 0;
pub const REFUSED: u8 = 1;
pub const WRONG: u8 = 2;
pub const NOT_DONE: u8 = 3;

/// Does what the words of the command say; answers the status, or what is wrong.
pub fn obey(verb: Verb) -> Result<u8, String> {
    match verb {
        Verb::Help => told(&format!("{USAGE}\n")),
        Verb::Version => told(&format!("daybook {}\n", env!("CARGO_PKG_VERSION"))),
        Verb::Completion => told(&completion()),
        Verb::New(folder) => {
            store::make(&mut Disk, &folder)?;
            let shown = folder.display();
            told(&format!(
                "{shown} has a fresh book: day 0, Taking; open it by `daybook {shown}`\n"
            ))
        }
        Verb::Open { folder, json, batch } => open(&folder, json, batch),
        Verb::Check(folder) => check(&folder),
        Verb::Compact(folder) => compact(&folder),
        Verb::Cut { folder, yes } => cut(&folder, yes),
        Verb::Tape(folder) => written(|out| history::read(&folder).map(|found| found.tape(out))),
        Verb::Explain { folder, json } => {
            written(|out| history::read(&folder).map(|found| found.explain(json, out)))
        }
    }
}

/// Says something on standard error, each of its lines by itself.
pub fn say(text: &str) {
    // Where standard error fails, nothing is left to say it to.
    let _ = writeln!(io::stderr(), "daybook: {}", text.replace('\n', "\ndaybook: "));
}

/// Writes to standard output; a write that fails is status 3.
fn written(
    write: impl FnOnce(&mut dyn Write) -> Result<io::Result<()>, String>,
) -> Result<u8, String> {
    let mut out = BufWriter::new(io::stdout().lock());
    let result = write(&mut out)?.and_then(|()| out.flush());
    Ok(result.map_or_else(|error| not_written(&error), |()| DONE))
}

/// Writes a text to standard output.
fn told(text: &str) -> Result<u8, String> {
    written(|out| Ok(out.write_all(text.as_bytes())))
}

/// Says that answers could not be written.
fn not_written(error: &io::Error) -> u8 {
    say(&format!("what is answered could not be written: {error}"));
    NOT_DONE
}

/// Opens a folder and answers lines.
fn open(folder: &Path, json: bool, batch: bool) -> Result<u8, String> {
    let terminal = io::stdin().is_terminal() && io::stdout().is_terminal() && !json;
    let Opened { store, book, note } = store::open(Disk, folder)?;
    note.iter().for_each(|note| say(note));
    if terminal {
        told(&format!("{}; `help` lists the lines\n", state_of(&book)))?;
    }
    let manner = Manner { terminal, json, batch };
    let ended = console::run(store, book, manner, io::stdin().lock(), &mut io::stdout().lock());
    Ok(match ended {
        Ok(Ended::Well) => DONE,
        Ok(Ended::Refused) if terminal => DONE,
        Ok(Ended::Refused) => REFUSED,
        Ok(Ended::NotDone) => {
            say("the disk failed: what was answered as not done is not in the book, all else is");
            NOT_DONE
        }
        Ok(Ended::Unsure) => {
            say("the disk failed, and whether what was answered last is on it is not known: look at \
                 the disk, then open the folder again and look at the book");
            NOT_DONE
        }
        Err(error) => not_written(&error),
    })
}

/// The book in a few words.
fn state_of(book: &Book) -> String {
    let (day, phase) = (book.day, book.phase.name().unwrap_or("no phase"));
    let ies = if book.entries == 1 { "y" } else { "ies" };
    format!("day {day}, {phase}, {} fail entr{ies}", Grouped(book.entries as i128))
}

/// Looks at every file of a folder.
fn check(folder: &Path) -> Result<u8, String> {
    folder::numbers(folder)?;
    if lock::held(folder) {
        say("a daybook is at work in this folder: what it has not answered yet may be on its way");
    }
    let History { files, book, .. } = match history::read(folder) {
        Ok(found) => found,
        Err(why) => {
            say(&why);
            return Ok(REFUSED);
        }
    };
    told(&format!("{}\nthe book is sound: {}\n", files.join("\n"), state_of(&book)))
}

/// Makes a new snapshot.
fn compact(folder: &Path) -> Result<u8, String> {
    let Opened { mut store, book, note } = store::open(Disk, folder)?;
    note.iter().for_each(|note| say(note));
    let records = counted(store.records() as usize, "record");
    match store.compact(&book) {
        Ok(number) => {
            let old = number - 1;
            told(&format!(
                "snapshot-{number} is the book, {}; journal-{old} with {records} stays beside\n",
                state_of(&book)
            ))
        }
        Err(why) => {
            say(&why);
            Ok(NOT_DONE)
        }
    }
}

/// Cuts a journal before its first damaged record.
fn cut(folder: &Path, yes: bool) -> Result<u8, String> {
    if !yes {
        let found = folder::newest(folder)
            .and_then(|number| folder::read(&folder::journal(folder, number)))?;
        if let Some(why) = folder::journal_of(&found).damaged {
            say(&format!(
                "{why}. What stands from there on is left out of the book: say --yes for it"
            ));
            return Ok(REFUSED);
        }
    }
    match store::cut(&mut Disk, folder)? {
        None => told("no record is damaged: nothing is cut\n"),
        Some(store::Cut { calls, bytes, kept }) => told(&format!(
            "the journal has {} now; {} are left out, the whole file is kept as {}\n",
            counted(calls, "record"),
            counted(bytes as usize, "byte"),
            kept.display()
        )),
    }
}
