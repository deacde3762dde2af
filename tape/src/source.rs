//! Where the bytes of a file are, and how they are read: in blocks, and again where they are wanted again.
//! What comes by a pipe is read once; where it is wanted again it is kept first, a long one in a temporary
//! file.

use std::env;
use std::ffi::OsStr;
use std::fs::{self, File};
use std::io::{self, Read, Seek, SeekFrom, Write};
use std::os::fd::AsFd;
use std::os::unix::fs::{FileExt, OpenOptionsExt};
use std::path::Path;
use std::process;

/// The bytes of a block.
pub const BLOCK: usize = 1 << 16;
/// How many first bytes are read at once, by which words are told from text.
const FIRST: usize = 8;
/// The most bytes of a pipe that are kept in memory.
const MOST_HELD: usize = 1 << 20;
/// What is said of a file that is cut or changed while it is read.
const CHANGED: &str = "it was changed meanwhile";
/// How many names of a temporary file are tried.
const TRIED: u32 = 100;

/// The bytes of a file, and its name in what is told.
#[derive(Debug)]
pub struct Source {
    name: String,
    first: Vec<u8>,
    bytes: Bytes,
}

/// Where the bytes are.
#[derive(Debug)]
enum Bytes {
    Held(Vec<u8>),
    /// In a file, from a place on as many as it had when it was opened.
    File {
        file: File,
        from: u64,
        length: u64,
    },
    /// In what can be read only once, behind the first ones.
    Once(File),
}

impl Source {
    /// The bytes of this name that are in memory.
    pub fn held(name: &str, bytes: Vec<u8>) -> Source {
        let first = bytes[..bytes.len().min(FIRST)].to_vec();
        Source { name: name.to_string(), first, bytes: Bytes::Held(bytes) }
    }

    /// Opens a file, or standard input.
    pub fn open(file: &OsStr) -> Result<Source, String> {
        let name = name_of(file);
        Source::opened(&name, file).map_err(|error| cannot(&name, &error))
    }

    /// A file of this name, with its first bytes.
    fn opened(name: &str, file: &OsStr) -> io::Result<Source> {
        let standard = file == "-";
        let mut file = match standard {
            true => File::from(io::stdin().as_fd().try_clone_to_owned()?),
            false => File::open(file)?,
        };
        let found = file.metadata()?;
        let bytes = if found.is_file() && found.len() > 0 {
            let from = file.stream_position()?;
            if standard {
                // Whoever reads on finds it read.
                file.seek(SeekFrom::Start(found.len().max(from)))?;
            }
            Bytes::File { file, from, length: found.len().saturating_sub(from) }
        } else {
            Bytes::Once(file)
        };
        let mut source = Source { name: name.to_string(), first: Vec::new(), bytes };
        let (mut first, mut blocks) = ([0; FIRST], source.blocks());
        let mut read = 0;
        while read < FIRST {
            match blocks.get(&mut first[read..])? {
                0 => break,
                more => read += more,
            }
        }
        source.first = first[..read].to_vec();
        Ok(source)
    }

    /// Its name in what is told.
    pub fn name(&self) -> &str {
        &self.name
    }

    /// Its first bytes, as many as tell words from text.
    pub fn first(&self) -> &[u8] {
        &self.first
    }

    /// How many bytes there are; of what can be read only once that is not known.
    pub fn length(&self) -> Option<u64> {
        match &self.bytes {
            Bytes::Held(bytes) => Some(bytes.len() as u64),
            Bytes::File { length, .. } => Some(*length),
            Bytes::Once(_) => None,
        }
    }

    /// What is said where it is not what it was when it was read before.
    pub fn changed(&self) -> String {
        cannot(&self.name, &io::Error::other(CHANGED))
    }

    /// Its bytes from the first on.
    pub fn blocks(&self) -> Blocks<'_> {
        Blocks { source: self, at: 0 }
    }

    /// All its bytes.
    pub fn all(&self) -> Result<Vec<u8>, String> {
        let (mut all, mut blocks) = (Vec::new(), self.blocks());
        let mut block = vec![0; BLOCK];
        loop {
            match blocks.read(&mut block)? {
                0 => return Ok(all),
                count => all.extend(&block[..count]),
            }
        }
    }

    /// Makes that it can be read again.
    pub fn keep(&mut self) -> Result<(), String> {
        let Bytes::Once(_) = self.bytes else { return Ok(()) };
        let (mut blocks, mut held) = (self.blocks(), Vec::new());
        let mut block = vec![0; BLOCK];
        let mut kept: Option<(File, u64)> = None;
        loop {
            let count = blocks.read(&mut block)?;
            if count == 0 {
                break;
            }
            match &mut kept {
                None => held.extend(&block[..count]),
                Some((file, length)) => {
                    let written = file.write_all(&block[..count]);
                    written.map_err(|error| unkept(&self.name, &error))?;
                    *length += count as u64;
                }
            }
            if kept.is_none() && held.len() > MOST_HELD {
                // Without a place for a temporary file it stays in memory.
                if let Ok(mut file) = temporary() {
                    file.write_all(&held).map_err(|error| unkept(&self.name, &error))?;
                    kept = Some((file, held.len() as u64));
                    held = Vec::new();
                }
            }
        }
        self.bytes = match kept {
            Some((file, length)) => Bytes::File { file, from: 0, length },
            None => Bytes::Held(held),
        };
        Ok(())
    }
}

/// The bytes of a source as they are read.
#[derive(Debug)]
pub struct Blocks<'a> {
    source: &'a Source,
    at: u64,
}

impl<'a> Blocks<'a> {
    /// Reads what follows into the room, as much as comes at once; 0 at the end.
    pub fn read(&mut self, room: &mut [u8]) -> Result<usize, String> {
        self.get(room).map_err(|error| cannot(&self.source.name, &error))
    }

    /// The same, with the error as it comes.
    fn get(&mut self, room: &mut [u8]) -> io::Result<usize> {
        let (first, at) = (&self.source.first, self.at as usize);
        let count = match &self.source.bytes {
            Bytes::Held(bytes) => copied(&bytes[at..], room),
            Bytes::File { file, from, length } => {
                let left = usize::try_from(length - self.at).unwrap_or(usize::MAX);
                let room_left = room.len().min(left);
                let room = &mut room[..room_left];
                let count = again(|| file.read_at(room, from + self.at))?;
                if count == 0 && left > 0 && !room.is_empty() {
                    return Err(io::Error::other(CHANGED));
                }
                count
            }
            Bytes::Once(_) if at < first.len() => copied(&first[at..], room),
            Bytes::Once(file) => {
                let mut file = file;
                again(|| file.read(room))?
            }
        };
        self.at += count as u64;
        Ok(count)
    }

    /// Where the bytes come from.
    pub fn source(&self) -> &'a Source {
        self.source
    }
}

/// Copies as many bytes as there is room for.
fn copied(bytes: &[u8], room: &mut [u8]) -> usize {
    let count = bytes.len().min(room.len());
    room[..count].copy_from_slice(&bytes[..count]);
    count
}

/// Reads once more where a signal interrupts it.
fn again(mut read: impl FnMut() -> io::Result<usize>) -> io::Result<usize> {
    loop {
        match read() {
            Err(error) if error.kind() == io::ErrorKind::Interrupted => {}
            answer => return answer,
        }
    }
}

/// A file that has no name any more, so that it goes when the program ends, however it does.
fn temporary() -> io::Result<File> {
    let mut options = File::options();
    options.read(true).write(true).create_new(true).mode(0o600);
    let mut tried = Err(io::ErrorKind::AlreadyExists.into());
    for at in 0..TRIED {
        let path = env::temp_dir().join(format!(".tape-{}-{at}.kept", process::id()));
        tried = options.open(&path);
        match &tried {
            Ok(_) => {
                fs::remove_file(&path)?;
                break;
            }
            Err(error) if error.kind() == io::ErrorKind::AlreadyExists => {}
            Err(_) => break,
        }
    }
    tried
}

/// The name of a file in what is told.
pub fn name_of(file: &OsStr) -> String {
    if file == "-" {
        "standard input".to_string()
    } else {
        Path::new(file).display().to_string()
    }
}

/// What is said of a file that cannot be read.
fn cannot(name: &str, error: &io::Error) -> String {
    format!("cannot read {name}: {error}")
}

/// What is said where a pipe cannot be kept.
fn unkept(name: &str, error: &io::Error) -> String {
    format!("cannot keep {name} in a temporary file: {error}")
}
