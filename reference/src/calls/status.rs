//! The reason a unit has not come: questions 2 3 4 16, then what waits or failed.

use super::Status;
use crate::book::{Book, Phase};
use crate::questions::{book_is_sound, issue_in_range, phase_is_not, unit_is_there, Soundness};
use crate::units::{handed, units_of, Unit};

/// Tells of the unit of this number in the order of the day.
pub(super) fn status(book: &Book, issue: u32, k: u32, soundness: Soundness) -> Result<Status, u32> {
    book_is_sound(book, soundness)?;
    phase_is_not(book, Phase::Taking)?;
    let issue = issue_in_range(issue)?;
    let units = units_of(book, issue);
    let k = unit_is_there(&units, k)?;
    let (count, stock) = handed(&units, book.delivered_total(issue));
    if k < count {
        return Ok(Status::Handed);
    }
    Ok(match book.phase {
        Phase::Cut => failed(&units, k, count, stock),
        _ => Status::Waiting((lots_of(&units[count..=k]) - stock) as u32),
    })
}

/// A unit that was not handed at the cutoff: the stock, if there was any, went to the next one.
fn failed(units: &[Unit], k: usize, next: usize, stock: u64) -> Status {
    if k > next || stock == 0 {
        return Status::WhollyFailed;
    }
    Status::PartlyFailed(units[k].lots - stock as u32)
}

/// The lots of units together.
fn lots_of(units: &[Unit]) -> u64 {
    units.iter().map(|unit| u64::from(unit.lots)).sum()
}
