//! A folder that is written: a call's record stands on the disk before it is answered, a file is replaced
//! whole, and where the disk fails it is said whether the folder is as it was.

use crate::call::Call;
use crate::files::{append_to, Files, Open};
use crate::folder::{self, beside, journal, snapshot, Held};
use crate::format::{self, RECORD_BYTES};
use crate::lock::{self, Lock};
use settlement_day::Book;
use std::fs;
use std::io;
use std::path::{Path, PathBuf};
use tape::bytes::join;
use tape::measure::counted;

/// The records of a journal have numbers of 32 bits.
const MOST_RECORDS: u64 = 1 << 32;

/// A folder that this process alone writes.
pub struct Store<F> {
    files: F,
    folder: PathBuf,
    number: u32,
    journal: Open,
    records: u64,
    /// Why the journal's end is not known, where it is not.
    unsure: Option<String>,
    _lock: Lock,
}

/// Why records are not on the disk.
#[derive(Clone, Debug, PartialEq, Eq)]
pub enum Failed {
    /// The folder is as it was before.
    NotDone(String),
    /// They may stand on the disk or not: nothing more is written.
    Unsure(String),
}

/// A store, its book, and what is to be said of its opening.
pub struct Opened<F> {
    pub store: Store<F>,
    pub book: Book,
    pub note: Option<String>,
}

/// Makes the folder of a fresh book. A folder that is there must hold none.
pub fn make(files: &mut impl Files, folder: &Path) -> Result<(), String> {
    let shown = folder.display();
    let cannot = |error: io::Error| format!("cannot make a book in {shown}: {error}");
    match fs::create_dir(folder) {
        Err(error) if error.kind() != io::ErrorKind::AlreadyExists => return Err(cannot(error)),
        _ => {}
    }
    let _lock = locked(folder)?;
    let numbers = folder::numbers(folder)?;
    if !numbers.snapshots.is_empty() {
        return Err(format!("{shown} holds a book already: open it by `daybook {shown}`"));
    }
    folder::none_behind(folder, &numbers)?;
    begin(files, folder, 0, &Book::fresh()).map_err(cannot)?;
    let folder = fs::canonicalize(folder).map_err(cannot)?;
    folder.parent().map_or(Ok(()), |parent| files.sync_folder(parent)).map_err(cannot)
}

/// Writes a snapshot and its empty journal. The book is at work with the rename, in one step.
fn begin(files: &mut impl Files, folder: &Path, number: u32, book: &Book) -> io::Result<()> {
    let words = format::save(book).map_err(io::Error::other)?;
    let empty = files.create(&journal(folder, number))?;
    files.sync(&empty)?;
    let (path, bytes) = (snapshot(folder, number), join(&words));
    let mut part = files.create(&beside(&path))?;
    files.write(&mut part, &bytes)?;
    files.sync(&part)?;
    // What was written must be the book before it takes the place of another.
    let again = folder::book_of(&fs::read(&part.path)?).map_err(io::Error::other)?;
    if again != *book {
        return Err(io::Error::other("the snapshot that was written is not the book"));
    }
    files.sync_folder(folder)?;
    files.rename(&part.path, &path)?;
    files.sync_folder(folder)
}

/// The lock of a folder, or that it is held.
fn locked(folder: &Path) -> Result<Lock, String> {
    let shown = folder.display();
    match lock::take(folder) {
        Ok(Some(lock)) => Ok(lock),
        Ok(None) => Err(format!("another daybook is at work in {shown}: end it first")),
        Err(error) => Err(format!(
            "cannot write in {shown}: {error}; `daybook check`, `tape` and `explain` only read it"
        )),
    }
}

/// Opens the folder of a book to be written. A last record that is not whole is cut off.
pub fn open<F: Files>(mut files: F, folder: &Path) -> Result<Opened<F>, String> {
    // A folder that is not there has no lock to be taken.
    folder::numbers(folder)?;
    let lock = locked(folder)?;
    let Held { number, book, calls, torn } = folder::held(folder)?;
    let path = journal(folder, number);
    let cannot = |error: io::Error| {
        let shown = path.display();
        format!("cannot write {shown}: {error}; `daybook check`, `tape` and `explain` only read it")
    };
    let journal = append_to(&path).map_err(cannot)?;
    if torn > 0 {
        files.cut(&journal, (calls * RECORD_BYTES) as u64).map_err(cannot)?;
    }
    // What was found may have been written by a process that ended before it could sync.
    files.sync(&journal).and_then(|()| files.sync_folder(folder)).map_err(cannot)?;
    let note = (torn > 0).then(|| {
        format!(
            "{}: {} of a last record that is not whole are cut off: its call was not answered",
            path.display(),
            counted(torn, "byte")
        )
    });
    let folder = folder.to_path_buf();
    let records = calls as u64;
    let store = Store { files, folder, number, journal, records, unsure: None, _lock: lock };
    Ok(Opened { store, book, note })
}

impl<F: Files> Store<F> {
    /// The number of the snapshot and the journal at work.
    pub fn number(&self) -> u32 {
        self.number
    }

    /// The records of the journal.
    pub fn records(&self) -> u64 {
        self.records
    }

    /// The bytes of the record of a call that comes behind so many others that are not written yet.
    pub fn record(&self, call: &Call, behind: usize) -> Result<Vec<u8>, String> {
        let number = self.records + behind as u64;
        let full = || format!("the journal is full: `daybook compact {}`", self.folder.display());
        let number =
            u32::try_from(number).ok().filter(|_| number < MOST_RECORDS).ok_or_else(full)?;
        let words = format::record(number, call).ok_or("a number does not fit its record")?;
        Ok(join(&words))
    }

    /// Puts whole records on the disk.
    pub fn append(&mut self, bytes: &[u8]) -> Result<(), Failed> {
        if let Some(why) = &self.unsure {
            return Err(Failed::Unsure(why.clone()));
        }
        let written = self.files.write(&mut self.journal, bytes);
        let synced = written.and_then(|()| self.files.sync(&self.journal));
        let Err(error) = synced else {
            self.records += (bytes.len() / RECORD_BYTES) as u64;
            return Ok(());
        };
        let why = format!("{} could not be written: {error}", self.journal.path.display());
        let good = self.records * RECORD_BYTES as u64;
        let cut = self.files.cut(&self.journal, good);
        match cut.and_then(|()| self.files.sync(&self.journal)) {
            Ok(()) => Err(Failed::NotDone(why)),
            Err(error) => {
                let why = format!("{why}; nor could it be put back as it was: {error}");
                self.unsure = Some(why.clone());
                Err(Failed::Unsure(why))
            }
        }
    }

    /// Makes a new snapshot with an empty journal; those before stay beside. Answers its number.
    pub fn compact(&mut self, book: &Book) -> Result<u32, String> {
        let next = self.number.checked_add(1).ok_or("there are too many snapshots")?;
        begin(&mut self.files, &self.folder, next, book).map_err(|error| {
            let shown = self.folder.display();
            format!("{shown} is not compacted: {error}; its book is as it was")
        })?;
        let path = journal(&self.folder, next);
        self.journal = append_to(&path).map_err(|error| format!("{}: {error}", path.display()))?;
        (self.number, self.records) = (next, 0);
        Ok(next)
    }
}

/// What `cut` leaves out, and where the whole file is kept.
pub struct Cut {
    pub calls: usize,
    pub bytes: u64,
    pub kept: PathBuf,
}

/// Cuts a journal before its first wrong record, and keeps the whole file beside; none where no record is
/// wrong.
pub fn cut(files: &mut impl Files, folder: &Path) -> Result<Option<Cut>, String> {
    folder::numbers(folder)?;
    let _lock = locked(folder)?;
    let path = journal(folder, folder::newest(folder)?);
    let bytes = folder::read(&path)?;
    let found = folder::journal_of(&bytes);
    if found.damaged.is_none() {
        return Ok(None);
    }
    let kept = (1..).map(|n| folder::named(&path, &format!(".damaged-{n}")));
    let kept = kept.into_iter().find(|kept| !kept.exists()).unwrap_or_default();
    let mut keep = || {
        let mut whole = files.create(&kept)?;
        files.write(&mut whole, &bytes)?;
        files.sync(&whole)?;
        files.sync_folder(folder)?;
        let journal = append_to(&path)?;
        files.cut(&journal, found.good())?;
        files.sync(&journal)
    };
    keep().map_err(|error| format!("cannot cut {}: {error}", path.display()))?;
    let bytes = bytes.len() as u64 - found.good();
    Ok(Some(Cut { calls: found.calls.len(), bytes, kept }))
}
