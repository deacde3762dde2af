//! The calls of a lift: ask gives a ticket, and commit with it settles one unit first.

use super::settling::handovers;
use super::Ticket;
use crate::book::{Book, Lift, Phase};
use crate::questions::{
    book_is_sound, issue_in_range, lifts_have_room, output_has, phase_is, ticket_is, unit_unhanded,
    Soundness, CALL_OUTPUT,
};
use crate::tape::write_records;
use crate::units::{handed, units_of};

/// ask: questions 2 3 4 16.
pub(super) fn ask(book: &Book, issue: u32, unit: u32, soundness: Soundness) -> Result<Ticket, u32> {
    book_is_sound(book, soundness)?;
    phase_is(book, Phase::Settling)?;
    let at = issue_in_range(issue)?;
    let found = unit_unhanded(&units_of(book, at), book.delivered_total(at), unit)?;
    Ok(Ticket {
        issue,
        unit,
        account: found.account,
        lots: found.lots,
        day: u32::from(book.day),
        count: book.lifts[at].count,
    })
}

/// commit: questions 1 2 3 4 16 17 18.
pub(super) fn commit(
    book: &mut Book,
    ticket: &Ticket,
    output: &mut [u32],
    soundness: Soundness,
) -> Result<u32, u32> {
    output_has(output, CALL_OUTPUT)?;
    let now = ask(book, ticket.issue, ticket.unit, soundness)?;
    ticket_is(ticket, &now)?;
    let issue = issue_in_range(ticket.issue)?;
    lifts_have_room(book.lifts[issue].standing().len())?;
    let total = book.delivered_total(issue);
    let (already, _) = handed(&units_of(book, issue), total);
    book.lifts[issue].add(Lift { old: ticket.unit, new: already as u32 });
    let units = units_of(book, issue);
    let (now, _) = handed(&units, total);
    Ok(write_records(&handovers(issue, &units[already..now]), output))
}
