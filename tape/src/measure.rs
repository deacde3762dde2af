//! Numbers for people: lots with their face in yen, and digits in threes.

use crate::block::{put, Piece, Text};
use std::fmt;
use std::io::{self, Write};

/// A number with a comma before every three digits.
#[derive(Clone, Copy, Debug, PartialEq, Eq)]
pub struct Grouped(pub i128);

/// The digits of each number below 1,000, three of each.
const THREES: [[u8; 3]; 1_000] = threes();

const fn threes() -> [[u8; 3]; 1_000] {
    let mut all = [[0; 3]; 1_000];
    let mut n = 0;
    while n < all.len() {
        all[n] = [b'0' + (n / 100) as u8, b'0' + (n / 10 % 10) as u8, b'0' + (n % 10) as u8];
        n += 1;
    }
    all
}

/// The same without zeros in front; what stands behind the digits does not count.
const FIRSTS: [[u8; 3]; 1_000] = firsts();

const fn firsts() -> [[u8; 3]; 1_000] {
    let mut all = THREES;
    let mut n = 0;
    while n < 100 {
        let [_, tens, ones] = all[n];
        all[n] = if n < 10 { [ones, b' ', b' '] } else { [tens, ones, b' '] };
        n += 1;
    }
    all
}

/// The room that a number takes at most: seven times three digits, and the six commas between them.
pub const ROOM: usize = 27;

/// Writes a number below 1,000 at the front of a room; answers how many digits it has.
#[inline(always)]
fn first(number: usize, room: &mut [u8; ROOM]) -> usize {
    room[..3].copy_from_slice(&FIRSTS[number]);
    1 + usize::from(number >= 10) + usize::from(number >= 100)
}

/// Writes a number from the front of a room, three digits at a time, with a comma before every three behind
/// the first where they are grouped; answers how many bytes it takes. What stands behind them does not count.
#[inline(always)]
pub fn digits(number: u64, grouped: bool, room: &mut [u8; ROOM]) -> usize {
    if number < 1_000 {
        return first(number as usize, room);
    }
    let (mut left, mut threes, mut count) = (number, [0_u16; 6], 0);
    while left >= 1_000 && count < threes.len() {
        threes[count] = (left % 1_000) as u16;
        left /= 1_000;
        count += 1;
    }
    let mut at = first(left as usize, room);
    for three in threes[..count].iter().rev() {
        if grouped {
            room[at] = b',';
            at += 1;
        }
        room[at..at + 3].copy_from_slice(&THREES[usize::from(*three)]);
        at += 3;
    }
    at
}

/// Writes a number, without the cost of a format.
pub fn write_number(out: &mut impl Write, number: u64) -> io::Result<()> {
    let mut written = [0; ROOM];
    let size = digits(number, false, &mut written);
    out.write_all(&written[..size])
}

impl Piece for Grouped {
    fn put(&self, out: &mut impl Text) -> io::Result<()> {
        if self.0 < 0 {
            out.write_all(b"-")?;
        }
        let size = self.0.unsigned_abs();
        match u64::try_from(size) {
            Ok(number) => out.number(number, true),
            Err(_) => write!(out, "{size}"),
        }
    }
}

impl fmt::Display for Grouped {
    fn fmt(&self, text: &mut fmt::Formatter) -> fmt::Result {
        text.write_str(&self.alone())
    }
}

/// So many of a thing, with an `s` where they are not one.
pub fn counted(count: usize, thing: &str) -> String {
    format!("{} {thing}{}", Grouped(count as i128), if count == 1 { "" } else { "s" })
}

/// Lots with their measure.
#[derive(Clone, Copy, Debug, PartialEq, Eq)]
pub struct Lots(pub u64);

impl Piece for Lots {
    #[inline(always)]
    fn put(&self, out: &mut impl Text) -> io::Result<()> {
        out.number(self.0, true)?;
        if self.0 == 1 { " lot" } else { " lots" }.put(out)
    }
}

impl fmt::Display for Lots {
    fn fmt(&self, text: &mut fmt::Formatter) -> fmt::Result {
        text.write_str(&self.alone())
    }
}

/// Lots with their measure and their face in yen, 50,000 a lot.
#[derive(Clone, Copy, Debug, PartialEq, Eq)]
pub struct Face(pub u64);

impl Piece for Face {
    #[inline(always)]
    fn put(&self, out: &mut impl Text) -> io::Result<()> {
        put!(out, Lots(self.0), " (")?;
        match self.0.checked_mul(50_000) {
            Some(yen) => out.number(yen, true)?,
            None => Grouped(i128::from(self.0) * 50_000).put(out)?,
        }
        " yen face)".put(out)
    }
}

impl fmt::Display for Face {
    fn fmt(&self, text: &mut fmt::Formatter) -> fmt::Result {
        text.write_str(&self.alone())
    }
}

/// A rate of so many hundredths of a percent a year.
#[derive(Clone, Copy, Debug, PartialEq, Eq)]
pub struct Rate(pub u32);

impl fmt::Display for Rate {
    fn fmt(&self, text: &mut fmt::Formatter) -> fmt::Result {
        write!(text, "{}.{:02} percent a year", self.0 / 100, self.0 % 100)
    }
}

/// A price of so many thousandths of a yen per 100 yen face.
#[derive(Clone, Copy, Debug, PartialEq, Eq)]
pub struct Price(pub u32);

impl fmt::Display for Price {
    fn fmt(&self, text: &mut fmt::Formatter) -> fmt::Result {
        write!(text, "{}.{:03}", self.0 / 1_000, self.0 % 1_000)
    }
}

#[cfg(test)]
mod tests {
    use super::*;

    #[test]
    fn numbers_are_grouped() {
        let numbers = [0, 12, 123, 1_234, -123, -123_456, 1_234_567];
        let texts = ["0", "12", "123", "1,234", "-123", "-123,456", "1,234,567"];
        assert_eq!(numbers.map(|number| Grouped(number).to_string()), texts);
        let most = Grouped(u64::MAX.into()).to_string();
        assert_eq!(most, "18,446,744,073,709,551,615");
        for number in [0, 9, 10, 99, 100, 999, 1_000, 1_001, 10_000, 999_999, 1_000_000, u64::MAX] {
            let mut written = Vec::new();
            write_number(&mut written, number).unwrap();
            assert_eq!(String::from_utf8(written).unwrap(), number.to_string());
        }
        assert_eq!(Grouped(i128::MIN).to_string(), i128::MIN.to_string());
    }

    #[test]
    fn measures_are_named() {
        assert_eq!(Lots(1).to_string(), "1 lot");
        assert_eq!([0, 1, 2].map(|n| counted(n, "step")), ["0 steps", "1 step", "2 steps"]);
        assert_eq!(Face(100_000).to_string(), "100,000 lots (5,000,000,000 yen face)");
        assert_eq!(Rate(305).to_string(), "3.05 percent a year");
        assert_eq!(Price(99_999).to_string(), "99.999");
    }
}
