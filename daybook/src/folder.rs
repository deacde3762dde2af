//! A folder of the console: the names of its files, and the book and the calls that they hold.
//!
//! `snapshot-N` is a book and `journal-N` has the calls since. The highest N is the one at work; those below
//! are kept by `compact`, and each snapshot is the book of the one before it and its journal.

use crate::call::Call;
use crate::format::{self, Read, RECORD_BYTES, RECORD_WORDS};
use settlement_day::{Book, OUTPUT_WORDS};
use std::fs;
use std::io;
use std::path::{Path, PathBuf};
use tape::bytes::split;
use tape::measure::{counted, Grouped};

/// How the names of snapshots and journals begin.
const SNAPSHOT: &str = "snapshot-";
const JOURNAL: &str = "journal-";
/// What stands behind the name of a file that is not whole yet.
const PART: &str = ".part";

/// The snapshot of a number.
pub fn snapshot(folder: &Path, number: u32) -> PathBuf {
    folder.join(format!("{SNAPSHOT}{number}"))
}

/// The journal of a number.
pub fn journal(folder: &Path, number: u32) -> PathBuf {
    folder.join(format!("{JOURNAL}{number}"))
}

/// The name under which a file is written before it is put in its place.
pub fn beside(path: &Path) -> PathBuf {
    named(path, PART)
}

/// A path with something behind its name.
pub fn named(path: &Path, behind: &str) -> PathBuf {
    let name = path.file_name().unwrap_or_default().to_string_lossy();
    path.with_file_name(format!("{name}{behind}"))
}

/// The numbers of a folder's snapshots and of its journals, both ascending.
#[derive(Clone, Debug, Default, PartialEq, Eq)]
pub struct Numbers {
    pub snapshots: Vec<u32>,
    pub journals: Vec<u32>,
}

/// Lists a folder.
pub fn numbers(folder: &Path) -> Result<Numbers, String> {
    let cannot = |error: io::Error| match error.kind() {
        io::ErrorKind::NotFound | io::ErrorKind::NotADirectory => {
            let shown = folder.display();
            format!("there is no folder {shown}: make a book by `daybook new {shown}`")
        }
        _ => format!("cannot read {}: {error}", folder.display()),
    };
    let mut numbers = Numbers::default();
    for entry in fs::read_dir(folder).map_err(cannot)? {
        let name = entry.map_err(cannot)?.file_name();
        let Some(name) = name.to_str() else { continue };
        // A name that is not the number's own, such as `journal-01`, is no file of the console.
        let number = |start: &str| -> Option<u32> {
            let number: u32 = name.strip_prefix(start)?.parse().ok()?;
            (name == format!("{start}{number}")).then_some(number)
        };
        numbers.snapshots.extend(number(SNAPSHOT));
        numbers.journals.extend(number(JOURNAL));
    }
    numbers.snapshots.sort_unstable();
    numbers.journals.sort_unstable();
    Ok(numbers)
}

/// The number at work in a folder.
pub fn newest(folder: &Path) -> Result<u32, String> {
    let numbers = numbers(folder)?;
    none_behind(folder, &numbers)?;
    let shown = folder.display();
    numbers.snapshots.last().copied().ok_or_else(|| {
        format!("{shown} holds no book, no file {SNAPSHOT}0: make one by `daybook new {shown}`")
    })
}

/// A journal with records that no snapshot stands before is an error: opened without it, calls that were
/// answered would be lost. An empty one is of a `compact` that did not come to its end.
pub fn none_behind(folder: &Path, numbers: &Numbers) -> Result<(), String> {
    let newest = numbers.snapshots.last();
    let behind = numbers.journals.iter().filter(|&number| newest.is_none_or(|last| last < number));
    for &number in behind {
        let path = journal(folder, number);
        if !read(&path)?.is_empty() {
            return Err(format!(
                "{} has records, and there is no {SNAPSHOT}{number} before them: put that back from \
                 a copy",
                path.display()
            ));
        }
    }
    Ok(())
}

/// All bytes of a file.
pub fn read(path: &Path) -> Result<Vec<u8>, String> {
    fs::read(path).map_err(|error| {
        let shown = path.display();
        match error.kind() {
            io::ErrorKind::NotFound => {
                format!("{shown} is missing: put it back from a copy, answered calls stand in it")
            }
            _ => format!("cannot read {shown}: {error}"),
        }
    })
}

/// The book of a snapshot's bytes.
pub fn book_of(bytes: &[u8]) -> Result<Book, &'static str> {
    let (words, stray) = split(bytes);
    if !stray.is_empty() {
        return Err("its last word is not whole");
    }
    format::open(&words)
}

/// The book of a snapshot in a folder.
pub fn book(folder: &Path, number: u32) -> Result<Book, String> {
    let path = snapshot(folder, number);
    book_of(&read(&path)?)
        .map_err(|why| format!("{} is damaged, {why}: put it back from a copy", path.display()))
}

/// What a journal's bytes hold.
#[derive(Clone, Debug, Default, PartialEq, Eq)]
pub struct Journal {
    pub calls: Vec<Call>,
    /// The bytes behind the last whole record: those of one that was being written when the process or
    /// the power went. It was never answered.
    pub torn: usize,
    /// Why the record behind the calls is wrong, though it has its length.
    pub damaged: Option<String>,
}

impl Journal {
    /// The bytes of the whole records.
    pub fn good(&self) -> u64 {
        (self.calls.len() * RECORD_BYTES) as u64
    }
}

/// Reads the records of a journal up to its end, or up to the first that is wrong.
pub fn journal_of(bytes: &[u8]) -> Journal {
    let (words, _) = split(bytes);
    let mut journal = Journal::default();
    for number in 0.. {
        let at = journal.calls.len() * RECORD_WORDS;
        let left = bytes.len() - 4 * at;
        match format::read(number, &words[at..]) {
            Read::Call(call) => journal.calls.push(call),
            _ if left < RECORD_BYTES => {
                journal.torn = left;
                break;
            }
            Read::Nothing | Read::Torn | Read::Damaged => {
                journal.damaged = Some(wrong(number, left));
                break;
            }
        }
    }
    journal
}

/// Where a record is wrong, and what may have come of it.
fn wrong(number: u32, left: usize) -> String {
    let at = Grouped(i128::from(number) * RECORD_BYTES as i128);
    let number = Grouped(number.into());
    if left == RECORD_BYTES {
        return format!(
            "record {number}, at byte {at}, the last, has its length and is wrong: the power went \
             while it was written and its call was never answered, or it is damaged"
        );
    }
    let behind = counted(left.div_ceil(RECORD_BYTES) - 1, "record");
    format!("record {number}, at byte {at}, is damaged, with {behind} behind it")
}

/// The book after calls, each of which it must accept.
pub fn replayed(mut book: Book, calls: &[Call]) -> Result<Book, String> {
    let mut output = vec![0; OUTPUT_WORDS];
    for (number, call) in calls.iter().enumerate() {
        if let Err(refusal) = call.make(&mut book, &mut output) {
            let (number, line) = (Grouped(number as i128), call.line());
            return Err(format!(
                "record {number}, `{line}`, is {refusal}: the journal is not that of its snapshot"
            ));
        }
    }
    Ok(book)
}

/// A folder's book as its files hold it.
#[derive(Clone, Debug)]
pub struct Held {
    pub number: u32,
    pub book: Book,
    pub calls: usize,
    pub torn: usize,
}

/// The book of a folder, and how many records its journal has; nothing is changed.
pub fn held(folder: &Path) -> Result<Held, String> {
    let number = newest(folder)?;
    let book = book(folder, number)?;
    let path = journal(folder, number);
    let Journal { calls, torn, damaged } = journal_of(&read(&path)?);
    let shown = path.display();
    if let Some(why) = damaged {
        return Err(format!(
            "{shown}: {why}. Put the file back from a copy; or `daybook cut {}` leaves out what \
             stands from there on, and keeps the whole file beside",
            folder.display()
        ));
    }
    let book = replayed(book, &calls)
        .map_err(|why| format!("{shown}: {why}. Put both back from one copy"))?;
    Ok(Held { number, book, calls: calls.len(), torn })
}
