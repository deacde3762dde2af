//! The calls of Taking: trade and close.

use crate::book::{place, Book, Phase};
use crate::questions::{
    account_in_range, accounts_differ, book_is_sound, issue_in_range, lots_in_range,
    lots_suit_the_mark, nets_stay_in_range, phase_is, Soundness,
};

/// trade: questions 2 3 4 5 6 7 19 8.
pub(super) fn trade(
    book: &mut Book,
    issue: u32,
    from: u32,
    to: u32,
    lots: u32,
    soundness: Soundness,
) -> Result<u32, u32> {
    book_is_sound(book, soundness)?;
    phase_is(book, Phase::Taking)?;
    let issue = issue_in_range(issue)?;
    let from = account_in_range(from)?;
    let to = account_in_range(to)?;
    accounts_differ(from, to)?;
    lots_in_range(lots)?;
    lots_suit_the_mark(book, issue, lots)?;
    nets_stay_in_range(book, issue, from, to, lots)?;
    book.nets[place(issue, from)] -= lots as i32;
    book.nets[place(issue, to)] += lots as i32;
    Ok(0)
}

/// close: questions 2 3.
pub(super) fn close(book: &mut Book, soundness: Soundness) -> Result<u32, u32> {
    book_is_sound(book, soundness)?;
    phase_is(book, Phase::Taking)?;
    book.phase = Phase::Settling;
    Ok(0)
}
