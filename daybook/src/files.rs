//! The file operations on which a folder's safety rests, each of which can fail: the disk's, and a place
//! where a test puts others.

use std::fs::{self, File};
use std::io::{self, Write};
use std::path::{Path, PathBuf};

/// An open file and its name.
#[derive(Debug)]
pub struct Open {
    pub path: PathBuf,
    pub file: File,
}

/// What is done to files. Nothing else changes a folder.
pub trait Files {
    /// Makes an empty file to be written at its end; one of this name that is there is emptied.
    fn create(&mut self, path: &Path) -> io::Result<Open>;
    /// Writes all bytes at the end of a file.
    fn write(&mut self, open: &mut Open, bytes: &[u8]) -> io::Result<()>;
    /// What was written stands on the disk when this is done.
    fn sync(&mut self, open: &Open) -> io::Result<()>;
    /// Cuts a file to a length.
    fn cut(&mut self, open: &Open, length: u64) -> io::Result<()>;
    /// Gives a file another name, in one step.
    fn rename(&mut self, from: &Path, to: &Path) -> io::Result<()>;
    /// The names of a folder's files stand on the disk when this is done.
    fn sync_folder(&mut self, folder: &Path) -> io::Result<()>;
}

/// The disk.
#[derive(Clone, Copy, Debug, Default)]
pub struct Disk;

impl Files for Disk {
    fn create(&mut self, path: &Path) -> io::Result<Open> {
        // What is there is emptied first: a file opened to be written at its end cannot be.
        drop(File::create(path)?);
        append_to(path)
    }

    fn write(&mut self, open: &mut Open, bytes: &[u8]) -> io::Result<()> {
        open.file.write_all(bytes)
    }

    fn sync(&mut self, open: &Open) -> io::Result<()> {
        open.file.sync_data()
    }

    fn cut(&mut self, open: &Open, length: u64) -> io::Result<()> {
        open.file.set_len(length)
    }

    fn rename(&mut self, from: &Path, to: &Path) -> io::Result<()> {
        fs::rename(from, to)
    }

    fn sync_folder(&mut self, folder: &Path) -> io::Result<()> {
        File::open(folder)?.sync_all()
    }
}

/// Opens a file that is there, to be written at its end.
pub fn append_to(path: &Path) -> io::Result<Open> {
    let file = File::options().append(true).open(path)?;
    Ok(Open { path: path.to_path_buf(), file })
}
