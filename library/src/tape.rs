//! The tape's reader and writer.

pub use crate::raw::quotes;
use crate::{raw, Instruction, Refusal};

/// Reads the instruction that begins at the first word: it and its word count, or 13 or 14.
#[inline]
pub fn read(words: &[u32]) -> Result<(Instruction, usize), Refusal> {
    let answer = raw::read(words);
    Refusal::check(answer.refusal)?;
    let instruction = Instruction::of_fields(answer.fields).ok_or(Refusal::Word)?;
    Ok((instruction, answer.count))
}

/// Writes an instruction, with the quotes of a roll; the count of its words, or 1 or 15.
pub fn write(instruction: &Instruction, quotes: &[u32], out: &mut [u32]) -> Result<usize, Refusal> {
    let answer = raw::write(&instruction.fields(), quotes, out);
    Refusal::check(answer.refusal).map(|()| answer.count)
}
