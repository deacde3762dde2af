//! The calls of Settling: deliver and cutoff.

use crate::book::{place, Book, Entry, Phase, ACCOUNTS, ISSUES};
use crate::questions::{
    account_in_range, book_is_sound, entries_have_room, issue_in_range, lots_in_range,
    lots_suit_the_mark, output_has, owes, phase_is, Soundness, CALL_OUTPUT,
};
use crate::tape::{write_records, Record, FAIL, HANDOVER};
use crate::units::{handed, units_of, Unit};

/// The lots of one account, laid from start to end after those before it.
struct Stretch {
    account: u32,
    start: u64,
    end: u64,
}

/// deliver: questions 1 2 3 4 5 7 19 9.
pub(super) fn deliver(
    book: &mut Book,
    issue: u32,
    account: u32,
    lots: u32,
    output: &mut [u32],
    soundness: Soundness,
) -> Result<u32, u32> {
    output_has(output, CALL_OUTPUT)?;
    book_is_sound(book, soundness)?;
    phase_is(book, Phase::Settling)?;
    let issue = issue_in_range(issue)?;
    let account = account_in_range(account)?;
    lots_in_range(lots)?;
    lots_suit_the_mark(book, issue, lots)?;
    owes(book.owed_today(issue, account), lots)?;
    let units = units_of(book, issue);
    let (already, _) = handed(&units, book.delivered_total(issue));
    book.delivered[place(issue, account)] += lots;
    book.lifts[issue].count += 1;
    let (now, _) = handed(&units, book.delivered_total(issue));
    Ok(write_records(&handovers(issue, &units[already..now]), output))
}

/// cutoff: questions 1 2 3 10.
pub(super) fn cutoff(
    book: &mut Book,
    output: &mut [u32],
    soundness: Soundness,
) -> Result<u32, u32> {
    output_has(output, CALL_OUTPUT)?;
    book_is_sound(book, soundness)?;
    phase_is(book, Phase::Settling)?;
    let records: Vec<Record> = (0..ISSUES).flat_map(|issue| cut_issue(book, issue)).collect();
    let fails = records.iter().filter(|record| record.kind == FAIL);
    let mut entries = book.ledger();
    entries.extend(fails.map(|fail| fail_entry(fail, book.day)));
    entries_have_room(entries.len())?;
    book.set_ledger(&entries);
    book.phase = Phase::Cut;
    Ok(write_records(&records, output))
}

/// The records of an issue at cutoff: the 10 of the remaining stock, if any, and then the 12s.
fn cut_issue(book: &Book, issue: usize) -> Vec<Record> {
    let units = units_of(book, issue);
    let (count, stock) = handed(&units, book.delivered_total(issue));
    let mut records = Vec::new();
    if stock != 0 {
        records.push(handover(issue, units[count].account, stock as u32));
    }
    let lacking = lacking_stretches(&units[count..], stock);
    for shortfall in shortfall_stretches(book, issue) {
        for lack in &lacking {
            records.extend(overlap(issue, &shortfall, lack));
        }
    }
    records
}

/// What units still lack, in unit order.
///
/// An account's full units are one stretch, at the place of the first of them, also where they lie
/// apart; its small unit is another. The stock is taken off the first unit.
fn lacking_stretches(units: &[Unit], stock: u64) -> Vec<Stretch> {
    let mut stretches: Vec<(Unit, u64)> = Vec::new();
    for unit in units {
        let lots = u64::from(unit.lots);
        let joined = |first: &Unit| first.full && unit.full && first.account == unit.account;
        match stretches.iter_mut().find(|(first, _)| joined(first)) {
            Some((_, whole)) => *whole += lots,
            None => stretches.push((*unit, lots)),
        }
    }
    if let Some((_, whole)) = stretches.first_mut() {
        *whole -= stock;
    }
    lay(stretches.into_iter().map(|(first, lots)| (first.account, lots)))
}

/// The shortfalls of deliverers, by ascending account.
fn shortfall_stretches(book: &Book, issue: usize) -> Vec<Stretch> {
    lay((0..ACCOUNTS).map(|account| (account as u32, book.owed_today(issue, account))))
}

/// Lays accounts' lots one after another.
fn lay(lots_by_account: impl Iterator<Item = (u32, u64)>) -> Vec<Stretch> {
    let mut start = 0;
    let stretches = lots_by_account.map(|(account, lots)| {
        let stretch = Stretch { account, start, end: start + lots };
        start = stretch.end;
        stretch
    });
    stretches.collect()
}

/// The fail where a shortfall and what is lacking overlap, if they do.
fn overlap(issue: usize, shortfall: &Stretch, lack: &Stretch) -> Option<Record> {
    let start = shortfall.start.max(lack.start);
    let end = shortfall.end.min(lack.end);
    (start < end).then(|| Record {
        kind: FAIL,
        issue: issue as u32,
        from: shortfall.account,
        to: lack.account,
        lots: (end - start) as u32,
    })
}

/// The 10s of units that are handed over, one a unit.
pub(super) fn handovers(issue: usize, units: &[Unit]) -> Vec<Record> {
    units.iter().map(|unit| handover(issue, unit.account, unit.lots)).collect()
}

/// A handover from the house: from is unused.
fn handover(issue: usize, to: u32, lots: u32) -> Record {
    Record { kind: HANDOVER, issue: issue as u32, from: 0, to, lots }
}

/// The ledger entry of a fail, with today's day.
fn fail_entry(fail: &Record, day: u16) -> Entry {
    Entry {
        issue: fail.issue as u8,
        from: fail.from as u8,
        to: fail.to as u8,
        lots: fail.lots,
        day,
    }
}
