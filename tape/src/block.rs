//! Texts put together piece by piece, without the cost of a format, and gathered in a block before they are written.

use crate::measure::{digits, ROOM};
use std::io::{self, ErrorKind, Write};

/// The bytes of a block.
const SIZE: usize = 1 << 16;
/// More than the longest line of an instruction has: a name has at most 32 letters, of 4 bytes each.
const LINE: usize = 1_024;

/// What a text is written to.
pub trait Text: Write {
    /// Writes a number, with a comma before every three digits where they are grouped.
    fn number(&mut self, number: u64, grouped: bool) -> io::Result<()>;
}

/// A piece of a text.
pub trait Piece {
    /// Puts it behind what is written.
    fn put(&self, out: &mut impl Text) -> io::Result<()>;

    /// It alone.
    fn alone(&self) -> String {
        let mut text = Vec::new();
        // A write to memory does not fail.
        let _ = self.put(&mut text);
        String::from_utf8_lossy(&text).to_string()
    }
}

impl Piece for &str {
    #[inline(always)]
    fn put(&self, out: &mut impl Text) -> io::Result<()> {
        out.write_all(self.as_bytes())
    }
}

/// A number as it is, its digits not grouped.
impl Piece for u64 {
    #[inline(always)]
    fn put(&self, out: &mut impl Text) -> io::Result<()> {
        out.number(*self, false)
    }
}

/// Puts pieces of a text one behind another.
macro_rules! put {
    ($out:expr, $($piece:expr),+ $(,)?) => {{
        $(crate::block::Piece::put(&$piece, $out)?;)+
        std::io::Result::Ok(())
    }};
}
pub(crate) use put;

impl Text for Vec<u8> {
    fn number(&mut self, number: u64, grouped: bool) -> io::Result<()> {
        let mut room = [0; ROOM];
        let size = digits(number, grouped, &mut room);
        self.write_all(&room[..size])
    }
}

/// What is gathered of a text, and where it goes.
pub struct Block<'a> {
    bytes: Box<[u8; SIZE]>,
    length: usize,
    out: &'a mut dyn Write,
}

impl<'a> Block<'a> {
    /// An empty block before an output.
    pub fn before(out: &'a mut dyn Write) -> Block<'a> {
        Block { bytes: Box::new([0; SIZE]), length: 0, out }
    }

    /// A line of an instruction: what is put into it stands next in the block.
    #[inline(always)]
    pub fn line(&mut self, put: impl FnOnce(&mut Line) -> io::Result<()>) -> io::Result<()> {
        if SIZE - self.length < LINE {
            self.pass()?;
        }
        let rest = self.bytes.get_mut(self.length..).and_then(|rest| rest.first_chunk_mut());
        let Some(room) = rest else { return Ok(()) };
        let mut line = Line { room, length: 0 };
        put(&mut line)?;
        self.length += line.length;
        Ok(())
    }

    /// Passes on what is gathered.
    fn pass(&mut self) -> io::Result<()> {
        // What cannot be written is not tried again.
        let length = std::mem::take(&mut self.length);
        self.out.write_all(&self.bytes[..length])
    }

    /// Writes what does not fit behind what is gathered.
    #[cold]
    fn write_on(&mut self, bytes: &[u8]) -> io::Result<()> {
        self.pass()?;
        match self.bytes.get_mut(..bytes.len()) {
            Some(room) => room.copy_from_slice(bytes),
            None => return self.out.write_all(bytes),
        }
        self.length = bytes.len();
        Ok(())
    }
}

impl Text for Block<'_> {
    /// The digits are put where they are to stand.
    #[inline(always)]
    fn number(&mut self, number: u64, grouped: bool) -> io::Result<()> {
        if SIZE - self.length < ROOM {
            self.pass()?;
        }
        let room = self.bytes.get_mut(self.length..).and_then(|rest| rest.first_chunk_mut());
        if let Some(room) = room {
            self.length += digits(number, grouped, room);
        }
        Ok(())
    }
}

impl Write for Block<'_> {
    fn write(&mut self, bytes: &[u8]) -> io::Result<usize> {
        self.write_all(bytes).map(|()| bytes.len())
    }

    #[inline(always)]
    fn write_all(&mut self, bytes: &[u8]) -> io::Result<()> {
        let Some(room) = self.bytes.get_mut(self.length..self.length + bytes.len()) else {
            return self.write_on(bytes);
        };
        room.copy_from_slice(bytes);
        self.length += bytes.len();
        Ok(())
    }

    fn flush(&mut self) -> io::Result<()> {
        self.pass()?;
        self.out.flush()
    }
}

/// The room of a line in a block, and how much of it is written. What does not fit is an error.
pub struct Line<'a> {
    room: &'a mut [u8; LINE],
    length: usize,
}

impl Text for Line<'_> {
    #[inline(always)]
    fn number(&mut self, number: u64, grouped: bool) -> io::Result<()> {
        let room = self.room.get_mut(self.length..).and_then(|rest| rest.first_chunk_mut());
        let Some(room) = room else { return Err(ErrorKind::WriteZero.into()) };
        self.length += digits(number, grouped, room);
        Ok(())
    }
}

impl Write for Line<'_> {
    fn write(&mut self, bytes: &[u8]) -> io::Result<usize> {
        self.write_all(bytes).map(|()| bytes.len())
    }

    #[inline(always)]
    fn write_all(&mut self, bytes: &[u8]) -> io::Result<()> {
        let room = self.room.get_mut(self.length..self.length + bytes.len());
        let Some(room) = room else { return Err(ErrorKind::WriteZero.into()) };
        room.copy_from_slice(bytes);
        self.length += bytes.len();
        Ok(())
    }

    fn flush(&mut self) -> io::Result<()> {
        Ok(())
    }
}

/// What was told before an error is written too.
impl Drop for Block<'_> {
    fn drop(&mut self) {
        let _ = self.pass();
    }
}

#[cfg(test)]
mod tests {
    use super::*;
    use crate::measure::{Grouped, Lots};

    /// Pieces and other writes, among them some that are longer than a block.
    #[test]
    fn nothing_is_lost_between_blocks() -> io::Result<()> {
        let (mut written, mut expected) = (Vec::new(), String::new());
        let mut block = Block::before(&mut written);
        for at in 0..5_000_u64 {
            block.line(|line| put!(line, "line ", at, ": ", Lots(at * 1_000)))?;
            put!(&mut block, "\n")?;
            expected += &format!("line {at}: {} lots\n", Grouped(i128::from(at) * 1_000));
            if at % 1_000 == 7 {
                let long = "x".repeat(SIZE - 2 + at as usize / 1_000);
                writeln!(block, "{long}")?;
                expected += &format!("{long}\n");
            }
        }
        put!(&mut block, u64::MAX)?;
        block.flush()?;
        drop(block);
        let expected = expected.replace(": 1 lots", ": 1 lot") + "18446744073709551615";
        assert!(String::from_utf8(written).is_ok_and(|written| written == expected));
        assert_eq!(Grouped(u64::MAX.into()).alone(), "18,446,744,073,709,551,615");
        Ok(())
    }

    /// An output that takes nothing.
    struct Full;

    impl Write for Full {
        fn write(&mut self, _: &[u8]) -> io::Result<usize> {
            Err(ErrorKind::StorageFull.into())
        }

        fn flush(&mut self) -> io::Result<()> {
            Ok(())
        }
    }

    #[test]
    fn what_cannot_be_written_is_an_error() {
        let mut full = Full;
        let mut block = Block::before(&mut full);
        assert!(writeln!(block, "a line").is_ok());
        assert!(block.flush().is_err());
        assert!((0..SIZE).try_for_each(|_| block.write_all(b"a line\n")).is_err());
        assert!((0..SIZE as u64).try_for_each(|at| block.number(at, false)).is_err());
    }
}
