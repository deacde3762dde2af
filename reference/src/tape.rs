//! Records and tape: 32-bit words, bits 31..28 the kind.

use crate::book::QUOTES;
use crate::calls::Answer;
use crate::questions::{ask, field_fits, output_has, word_present, word_right, WRITER_OUTPUT};

pub const TRADE: u32 = 1;
pub const DELIVER: u32 = 2;
pub const RESOLVE: u32 = 3;
pub const PAIR_OFF: u32 = 4;
pub const CLOSE: u32 = 5;
pub const CUTOFF: u32 = 6;
pub const ROLL: u32 = 7;
/// The word after a head, with lots in 27..0.
pub const LOTS: u32 = 8;
/// One of the 32 words after a roll, with a price or an accrued amount in 17..0.
pub const QUOTE: u32 = 9;
/// The record of a handover from the house.
pub const HANDOVER: u32 = 10;
/// The record of a handover in a resolve.
pub const RESOLVED: u32 = 11;
/// The record of a fail.
pub const FAIL: u32 = 12;
pub const MARK: u32 = 13;
pub const TURN: u32 = 14;

/// An instruction of the tape; a roll's sixteen prices and sixteen accrued amounts stand beside
/// it.
#[derive(Clone, Copy, Debug, PartialEq, Eq)]
pub enum Instruction {
    Trade { issue: u32, from: u32, to: u32, lots: u32 },
    Deliver { issue: u32, account: u32, lots: u32 },
    Resolve { issue: u32, account: u32, lots: u32 },
    PairOff { issue: u32, account: u32 },
    Close,
    Cutoff,
    Roll { days: u32, rate: u32 },
    Mark { issue: u32, mark: u32 },
    Turn { day: u32 },
}

/// A record that a call writes: a head and a lots word.
#[derive(Clone, Copy, Debug, PartialEq, Eq)]
pub struct Record {
    pub kind: u32,
    pub issue: u32,
    pub from: u32,
    pub to: u32,
    pub lots: u32,
}

impl Record {
    /// The record's two words; every field is in range.
    pub fn words(&self) -> [u32; 2] {
        let head = self.kind << 28 | self.issue << 24 | self.from << 18 | self.to << 12;
        [head, LOTS << 28 | self.lots]
    }
}

/// Writes records and gives their count; words after the last record keep their content.
pub fn write_records(records: &[Record], output: &mut [u32]) -> u32 {
    for (record, words) in records.iter().zip(output.chunks_exact_mut(2)) {
        words.copy_from_slice(&record.words());
    }
    records.len() as u32
}

/// Reads the instruction that begins at the first word: it and its word count, or 13 or 14.
pub fn read(words: &[u32]) -> Result<(Instruction, usize), u32> {
    let head = word_present(words, 0)?;
    match field(head, 31, 28) {
        TRADE => read_trade(words, head),
        DELIVER => {
            let (issue, account) = read_account(head)?;
            Ok((Instruction::Deliver { issue, account, lots: read_lots(words)? }, 2))
        }
        RESOLVE => {
            let (issue, account) = read_account(head)?;
            Ok((Instruction::Resolve { issue, account, lots: read_lots(words)? }, 2))
        }
        PAIR_OFF => {
            let (issue, account) = read_account(head)?;
            Ok((Instruction::PairOff { issue, account }, 1))
        }
        CLOSE => unused(head, 27, 0).map(|()| (Instruction::Close, 1)),
        CUTOFF => unused(head, 27, 0).map(|()| (Instruction::Cutoff, 1)),
        ROLL => read_roll(words, head),
        MARK => read_mark(head),
        TURN => {
            unused(head, 27, 16)?;
            Ok((Instruction::Turn { day: field(head, 15, 0) }, 1))
        }
        _ => Err(14),
    }
}

/// The prices and then the accrued amounts of the accepted roll that begins at the first word,
/// issue 0 first in both.
pub fn quotes(words: &[u32]) -> Vec<u32> {
    words.iter().skip(1).take(QUOTES).map(|&word| field(word, 17, 0)).collect()
}

/// Writes an instruction, with the quotes of a roll: its word count, or 1 or 15.
///
/// Words after the last keep their content; quotes beside another instruction are not looked at.
pub fn write(instruction: &Instruction, quotes: &[u32], output: &mut [u32]) -> Answer {
    let words =
        output_has(output, WRITER_OUTPUT).and_then(|()| instruction_words(instruction, quotes));
    Answer::from(words.map(|words| {
        output[..words.len()].copy_from_slice(&words);
        words.len() as u32
    }))
}

/// A trade: its head with issue, from and to, then a kind 8 word.
fn read_trade(words: &[u32], head: u32) -> Result<(Instruction, usize), u32> {
    unused(head, 11, 0)?;
    let lots = read_lots(words)?;
    let (issue, from, to) = (field(head, 27, 24), field(head, 23, 18), field(head, 17, 12));
    Ok((Instruction::Trade { issue, from, to, lots }, 2))
}

/// The issue and the only account of a head.
fn read_account(head: u32) -> Result<(u32, u32), u32> {
    unused(head, 17, 0)?;
    Ok((field(head, 27, 24), field(head, 23, 18)))
}

/// The lots of the kind 8 word after a head.
fn read_lots(words: &[u32]) -> Result<u32, u32> {
    let word = word_present(words, 1)?;
    word_right(field(word, 31, 28) == LOTS)?;
    Ok(field(word, 27, 0))
}

/// A roll: its head, then sixteen kind 9 words of prices and sixteen of accrued amounts.
fn read_roll(words: &[u32], head: u32) -> Result<(Instruction, usize), u32> {
    unused(head, 9, 0)?;
    for at in 1..=QUOTES {
        let word = word_present(words, at)?;
        word_right(field(word, 31, 28) == QUOTE)?;
        unused(word, 27, 18)?;
    }
    Ok((Instruction::Roll { days: field(head, 27, 24), rate: field(head, 23, 10) }, 1 + QUOTES))
}

/// A mark: the issue, and the mark in bit 0.
fn read_mark(head: u32) -> Result<(Instruction, usize), u32> {
    unused(head, 23, 1)?;
    Ok((Instruction::Mark { issue: field(head, 27, 24), mark: field(head, 0, 0) }, 1))
}

/// The words of an instruction, each field put to question 15.
fn instruction_words(instruction: &Instruction, quotes: &[u32]) -> Result<Vec<u32>, u32> {
    match *instruction {
        Instruction::Trade { issue, from, to, lots } => {
            Ok(vec![head(TRADE, issue, from)? | put(to, 17, 12)?, lots_word(lots)?])
        }
        Instruction::Deliver { issue, account, lots } => {
            Ok(vec![head(DELIVER, issue, account)?, lots_word(lots)?])
        }
        Instruction::Resolve { issue, account, lots } => {
            Ok(vec![head(RESOLVE, issue, account)?, lots_word(lots)?])
        }
        Instruction::PairOff { issue, account } => Ok(vec![head(PAIR_OFF, issue, account)?]),
        Instruction::Close => Ok(vec![CLOSE << 28]),
        Instruction::Cutoff => Ok(vec![CUTOFF << 28]),
        Instruction::Roll { days, rate } => roll_words(days, rate, quotes),
        Instruction::Mark { issue, mark } => {
            Ok(vec![MARK << 28 | put(issue, 27, 24)? | put(mark, 0, 0)?])
        }
        Instruction::Turn { day } => Ok(vec![TURN << 28 | put(day, 15, 0)?]),
    }
}

/// The words of a roll; quotes that are not 32 have no place among its bits.
fn roll_words(days: u32, rate: u32, quotes: &[u32]) -> Result<Vec<u32>, u32> {
    ask(15, quotes.len() == QUOTES)?;
    let mut words = vec![ROLL << 28 | put(days, 27, 24)? | put(rate, 23, 10)?];
    for &quote in quotes {
        words.push(QUOTE << 28 | put(quote, 17, 0)?);
    }
    Ok(words)
}

/// A head with its kind, issue and first account.
fn head(kind: u32, issue: u32, account: u32) -> Result<u32, u32> {
    Ok(kind << 28 | put(issue, 27, 24)? | put(account, 23, 18)?)
}

/// A kind 8 word.
fn lots_word(lots: u32) -> Result<u32, u32> {
    Ok(LOTS << 28 | put(lots, 27, 0)?)
}

/// A number put into the bits high..low of a word.
fn put(number: u32, high: u32, low: u32) -> Result<u32, u32> {
    field_fits(number, high - low + 1)?;
    Ok(number << low)
}

/// The bits high..low of a word.
fn field(word: u32, high: u32, low: u32) -> u32 {
    word << (31 - high) >> (31 - high + low)
}

/// Unused bits are 0.
fn unused(word: u32, high: u32, low: u32) -> Result<(), u32> {
    word_right(field(word, high, low) == 0)
}
