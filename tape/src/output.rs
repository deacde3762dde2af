//! Where what is told goes: to standard output, or to a file. A file is written beside its place and
//! then put there, so that a run that fails or is interrupted leaves what was there, whole.

use crate::interrupt;
use crate::options::{Given, FORCE, OUT};
use crate::progress;
use std::ffi::OsStr;
use std::fs::{self, File};
use std::io::{self, IsTerminal, Write};
use std::path::{Path, PathBuf};
use std::process;

/// An output that is asked for.
#[derive(Clone, Debug, PartialEq, Eq)]
pub enum Output {
    Standard,
    /// A device or a pipe: written to as it is.
    Device(PathBuf),
    /// A file that is made, or replaced where `replace` says so.
    File {
        path: PathBuf,
        replace: bool,
    },
}

impl Output {
    /// The output that a command asks for. A file that is there is an error, unless it may be replaced.
    pub fn of(given: &Given) -> Result<Output, String> {
        let replace = given.has(&FORCE);
        let Some(name) = given.value(&OUT).filter(|name| *name != "-") else {
            let nothing = "--force replaces the file that -o names: name one by -o FILE";
            return if replace { Err(nothing.to_string()) } else { Ok(Output::Standard) };
        };
        Output::of_file(name, replace)
    }

    /// The output to a file of this name.
    fn of_file(name: &OsStr, replace: bool) -> Result<Output, String> {
        let path = PathBuf::from(name);
        let shown = path.display();
        let Ok(found) = fs::symlink_metadata(&path) else {
            return Ok(Output::File { path, replace });
        };
        // A link stands for what it leads to, if it leads anywhere.
        let found = fs::metadata(&path).unwrap_or(found);
        if found.is_dir() {
            return Err(format!("cannot write {shown}: it is a folder; name a file in it"));
        }
        if !found.is_file() && !found.is_symlink() {
            return Ok(Output::Device(path));
        }
        if !replace {
            return Err(exists(&path));
        }
        Ok(Output::File { path: fs::canonicalize(&path).unwrap_or(path), replace })
    }

    /// Opens it.
    pub fn open(self) -> Result<Writer, String> {
        let name = self.name();
        let terminal = self == Output::Standard && io::stdout().is_terminal();
        let (to, place): (Box<dyn Write>, _) = match self {
            Output::Standard => (Box::new(io::stdout().lock()), None),
            Output::Device(path) => {
                let file = File::options().write(true).open(path);
                (Box::new(file.map_err(|error| cannot(&name, &error))?), None)
            }
            Output::File { path, replace } => {
                let beside = path.with_file_name(format!(".tape-{}.part", process::id()));
                interrupt::writing(&beside);
                let file = File::create_new(&beside).map_err(|error| {
                    interrupt::written();
                    cannot(&name, &error)
                })?;
                (Box::new(file), Some(Place { beside, path, replace }))
            }
        };
        Ok(Writer { name, to: Some(to), place, terminal })
    }

    /// Its name in what is told.
    fn name(&self) -> String {
        match self {
            Output::Standard => "standard output".to_string(),
            Output::Device(path) | Output::File { path, .. } => path.display().to_string(),
        }
    }
}

/// The place of a file that is written beside it.
struct Place {
    beside: PathBuf,
    path: PathBuf,
    replace: bool,
}

/// Why something is not told to its end.
#[derive(Debug)]
pub enum Untold {
    /// The output could not be written.
    Output(io::Error),
    /// The input could not be read: what is said of it.
    Unread(String),
    /// A page would be too long: what to do.
    Long(String),
}

impl From<io::Error> for Untold {
    fn from(error: io::Error) -> Untold {
        Untold::Output(error)
    }
}

impl From<String> for Untold {
    fn from(error: String) -> Untold {
        Untold::Unread(error)
    }
}

/// An open output. A file that is not kept is as if it had never been begun.
pub struct Writer {
    name: String,
    to: Option<Box<dyn Write>>,
    place: Option<Place>,
    /// Is it standard output, and that a terminal?
    terminal: bool,
}

impl Writer {
    /// Says of an error that this output could not be written.
    pub fn failed(&self, error: &io::Error) -> String {
        cannot(&self.name, error)
    }

    /// Says why what was to be told to this output is not told to its end.
    pub fn untold(&self, untold: Untold) -> String {
        match untold {
            Untold::Output(error) => self.failed(&error),
            Untold::Unread(what) | Untold::Long(what) => what,
        }
    }

    /// Does what is not kept leave a file as it was?
    pub fn can_be_left(&self) -> bool {
        self.place.is_some()
    }

    /// All is written: puts a file in its place.
    pub fn keep(mut self) -> Result<(), String> {
        let flushed = self.flush();
        flushed.map_err(|error| self.failed(&error))?;
        self.to = None;
        let Some(place) = self.place.take() else { return Ok(()) };
        let kept = place.keep();
        place.remove();
        kept.map_err(|error| match error.kind() {
            io::ErrorKind::AlreadyExists => exists(&place.path),
            _ => cannot(&self.name, &error),
        })
    }
}

impl Place {
    /// Puts what was written in its place, in one step.
    fn keep(&self) -> io::Result<()> {
        let Place { beside, path, replace } = self;
        if *replace {
            if let Ok(old) = fs::metadata(path) {
                fs::set_permissions(beside, old.permissions())?;
            }
            return fs::rename(beside, path);
        }
        match fs::hard_link(beside, path) {
            // A file system without links.
            Err(error) if error.kind() != io::ErrorKind::AlreadyExists && !path.exists() => {
                fs::rename(beside, path)
            }
            linked => linked,
        }
    }

    /// Removes what was written beside the place, if it is still there.
    fn remove(&self) {
        let _ = fs::remove_file(&self.beside);
        interrupt::written();
    }
}

impl Drop for Writer {
    fn drop(&mut self) {
        if let Some(place) = &self.place {
            place.remove();
        }
    }
}

impl Write for Writer {
    fn write(&mut self, bytes: &[u8]) -> io::Result<usize> {
        if self.terminal {
            progress::spoken();
        }
        self.to.as_mut().map_or(Ok(bytes.len()), |to| to.write(bytes)).inspect_err(unread)
    }

    fn flush(&mut self) -> io::Result<()> {
        self.to.as_mut().map_or(Ok(()), |to| to.flush()).inspect_err(unread)
    }
}

/// Where nobody reads on, as behind `| head`, the program ends as others do, and says nothing.
fn unread(error: &io::Error) {
    if error.kind() == io::ErrorKind::BrokenPipe {
        interrupt::end_unread();
    }
}

/// What is said of an output that fails.
fn cannot(name: &str, error: &io::Error) -> String {
    format!("cannot write {name}: {error}")
}

/// What is said of a file that is there already.
fn exists(path: &Path) -> String {
    let shown = path.display();
    format!(
        "{shown} exists and is left as it is: name another file by -o, or replace it by --force"
    )
}
