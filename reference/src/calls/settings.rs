//! The calls that set how the book goes on: mark, of how an issue trades, and turn, of the first day on
//! which full units are dealt in turn.

use crate::book::Book;
use crate::questions::{
    book_is_sound, day_can_be_named, issue_in_range, issue_is_empty, Soundness,
};

/// mark: questions 2 4 20.
pub(super) fn mark(
    book: &mut Book,
    issue: u32,
    mark: u32,
    soundness: Soundness,
) -> Result<u32, u32> {
    book_is_sound(book, soundness)?;
    let issue = issue_in_range(issue)?;
    issue_is_empty(book, issue)?;
    book.marks[issue] = u8::from(mark != 0);
    Ok(0)
}

/// turn: questions 2 26.
pub(super) fn turn(book: &mut Book, day: u32, soundness: Soundness) -> Result<u32, u32> {
    book_is_sound(book, soundness)?;
    day_can_be_named(book, day)?;
    book.turn = day;
    Ok(0)
}
