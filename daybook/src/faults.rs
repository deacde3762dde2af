//! For tests: the disk, with a fault at one operation. The process ends there, or the operation fails, or the
//! power goes, and what was not synced may be lost.

use crate::files::{Disk, Files, Open};
use std::cell::RefCell;
use std::collections::BTreeMap;
use std::fs::{self, File};
use std::io;
use std::path::{Path, PathBuf};
use std::process;
use std::rc::Rc;

/// What happens at an operation, counted from 0.
#[derive(Clone, Copy, Debug, PartialEq, Eq)]
pub struct Fault {
    pub at: u64,
    /// So many bytes of a write are written first; all of them, and any other operation done, where it is
    /// as large as can be.
    pub part: usize,
    pub then: Then,
}

/// What comes of it.
#[derive(Clone, Copy, Debug, PartialEq, Eq)]
pub enum Then {
    /// The process ends at once.
    Abort,
    /// It fails with this error of the system, and so do all after it, so many in all.
    Fail { error: i32, times: u64 },
    /// Nothing is done from here on: the power is gone.
    End,
}

/// The disk with a fault; a copy is of the same disk.
#[derive(Clone, Debug)]
pub struct Faulty(Rc<RefCell<State>>);

#[derive(Debug)]
struct State {
    fault: Fault,
    /// The operations so far.
    count: u64,
    /// Of each file that was written, the length that is synced.
    synced: BTreeMap<PathBuf, u64>,
    /// Names that are not synced: a file's, and the one that it had before.
    names: Vec<(PathBuf, Option<PathBuf>)>,
}

/// What is to be done of an operation.
enum Does {
    All,
    /// So many bytes, and then it ends so.
    Part(usize, io::Error),
}

impl Faulty {
    /// The disk with a fault.
    pub fn new(fault: Fault) -> Faulty {
        let (synced, names) = (BTreeMap::new(), Vec::new());
        Faulty(Rc::new(RefCell::new(State { fault, count: 0, synced, names })))
    }

    /// The operations so far.
    pub fn count(&self) -> u64 {
        self.0.borrow().count
    }

    /// Did the fault come?
    pub fn came(&self) -> bool {
        let state = self.0.borrow();
        state.count > state.fault.at
    }

    /// Loses what was not synced: of a file any bytes behind those that are, and of names any. `chance`
    /// gives a number up to the one that it is given.
    pub fn lose(&self, mut chance: impl FnMut(u64) -> u64) -> io::Result<()> {
        let state = self.0.borrow();
        for (path, &synced) in &state.synced {
            let Ok(file) = File::options().write(true).open(path) else { continue };
            let written = file.metadata()?.len().saturating_sub(synced);
            file.set_len(synced + chance(written))?;
        }
        for (name, before) in state.names.iter().rev() {
            match before {
                // A file that has another name by now goes with that.
                _ if !name.exists() || chance(1) == 0 => {}
                Some(before) => fs::rename(name, before)?,
                None => fs::remove_file(name)?,
            }
        }
        Ok(())
    }

    /// Counts an operation; a write has so many bytes.
    fn next(&self, bytes: usize) -> Does {
        let mut state = self.0.borrow_mut();
        let Fault { at, part, then } = state.fault;
        let count = state.count;
        state.count += 1;
        let ended = || io::Error::other("the power is gone");
        match then {
            Then::Fail { error, times } if (at..at + times).contains(&count) => {
                Does::Part(part.min(bytes), io::Error::from_raw_os_error(error))
            }
            Then::End if count > at => Does::Part(0, ended()),
            Then::End | Then::Abort if count == at => Does::Part(part.min(bytes), ended()),
            _ => Does::All,
        }
    }

    /// Ends the process if that is the fault; otherwise the error.
    fn over(&self, error: io::Error) -> io::Error {
        if self.0.borrow().fault.then == Then::Abort {
            process::abort();
        }
        error
    }

    /// Is an operation at which the fault comes done before it?
    fn is_done_first(&self) -> bool {
        let state = self.0.borrow();
        state.fault.part == usize::MAX && state.count == state.fault.at + 1
    }

    /// An operation that is no write, and what is noted of it.
    fn whole<T>(
        &self,
        operation: impl FnOnce() -> io::Result<T>,
        note: impl FnOnce(&mut State),
    ) -> io::Result<T> {
        let error = match self.next(0) {
            Does::All => None,
            Does::Part(_, error) if self.is_done_first() => Some(error),
            Does::Part(_, error) => return Err(self.over(error)),
        };
        let done = operation()?;
        note(&mut self.0.borrow_mut());
        error.map_or(Ok(done), |error| Err(self.over(error)))
    }
}

impl Files for Faulty {
    fn create(&mut self, path: &Path) -> io::Result<Open> {
        let is_there = path.exists();
        self.whole(
            || Disk.create(path),
            |state| {
                state.synced.insert(path.to_path_buf(), 0);
                if !is_there {
                    state.names.push((path.to_path_buf(), None));
                }
            },
        )
    }

    fn write(&mut self, open: &mut Open, bytes: &[u8]) -> io::Result<()> {
        let length = open.file.metadata()?.len();
        self.0.borrow_mut().synced.entry(open.path.clone()).or_insert(length);
        match self.next(bytes.len()) {
            Does::All => Disk.write(open, bytes),
            Does::Part(part, error) => {
                Disk.write(open, &bytes[..part])?;
                Err(self.over(error))
            }
        }
    }

    fn sync(&mut self, open: &Open) -> io::Result<()> {
        let length = open.file.metadata()?.len();
        self.whole(
            || Disk.sync(open),
            |state| {
                state.synced.insert(open.path.clone(), length);
            },
        )
    }

    fn cut(&mut self, open: &Open, length: u64) -> io::Result<()> {
        self.whole(
            || Disk.cut(open, length),
            |state| {
                let synced = state.synced.entry(open.path.clone()).or_insert(length);
                *synced = length.min(*synced);
            },
        )
    }

    fn rename(&mut self, from: &Path, to: &Path) -> io::Result<()> {
        self.whole(
            || Disk.rename(from, to),
            |state| {
                let synced = state.synced.remove(from).unwrap_or_default();
                state.synced.insert(to.to_path_buf(), synced);
                state.names.push((to.to_path_buf(), Some(from.to_path_buf())));
            },
        )
    }

    fn sync_folder(&mut self, folder: &Path) -> io::Result<()> {
        let inside = |name: &Path| name.parent() == Some(folder);
        self.whole(
            || Disk.sync_folder(folder),
            |state| state.names.retain(|(name, _)| !inside(name)),
        )
    }
}
