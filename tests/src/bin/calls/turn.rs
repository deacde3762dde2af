//! Part turn: worked days with full units dealt in turn by their numbers, every day at the edge of
//! question 26, and one list of days with the change-over on each of them.
//!
//! Of each list the days before the change have the old order and those from it on the new one;
//! deliveries, cutoffs and lifts follow it.

use crate::Failure;
use reference::book::{Book, Phase};
use reference::calls::ask_on_sound;
use reference::measures::same_quotes;
use tests::case::Case;
use tests::engines::Answer;
use tests::report::Mismatch;
use tests::steps::{Call, Edit};

/// The words of an output.
const OUT: usize = 4_096;
/// The days of the list.
const DAYS: u32 = 5;
/// The trades of P5: from, to and lots.
const P5: [(u32, u32, u32); 3] = [(4, 1, 230_000), (5, 2, 250_000), (5, 3, 150_000)];
/// The accounts of its units in the old order and in the new.
const OLD: [u64; 8] = [2, 2, 1, 1, 3, 2, 3, 1];
const NEW: [u64; 8] = [2, 1, 3, 2, 1, 2, 3, 1];

/// Runs the worked days, every edge and the lists; gives the answers compared.
pub fn run(_seed: u64, _cases: u64) -> Result<u64, Failure> {
    let mut compared = worked_day()? + gathered()? + lifted()? + edges()?;
    for first in 1..=DAYS + 1 {
        compared += days_before_and_after(first)?;
    }
    Ok(compared)
}

/// P5's market on the first day of the new order, between close and cutoff.
fn p5_in_turn() -> Result<Case, Mismatch> {
    let mut case = Case::fresh();
    case.expect(Call::Turn { day: 1 }, 0)?;
    end_day(&mut case)?;
    trade(&mut case)?;
    case.expect(Call::Close, 0)?;
    Ok(case)
}

/// The trades of P5 in issue 0.
fn trade(case: &mut Case) -> Result<(), Mismatch> {
    for (from, to, lots) in P5 {
        case.expect(Call::Trade { issue: 0, from, to, lots }, 0)?;
    }
    Ok(())
}

/// The rest of a day.
fn end_day(case: &mut Case) -> Result<(), Mismatch> {
    if case.book().phase == Phase::Taking {
        case.expect(Call::Close, 0)?;
    }
    if case.book().phase == Phase::Settling {
        case.expect(Call::Cutoff { out: OUT }, 0)?;
    }
    let quotes = same_quotes(100_000, 0).to_vec();
    case.expect(Call::Roll { days: 1, rate: 300, quotes }, 0).map(|_| ())
}

/// The units of issue 0 must be those of these accounts.
fn order_is(case: &mut Case, accounts: &[u64]) -> Result<(), Failure> {
    for (k, &account) in (0..).zip(accounts) {
        let unit = case.expect(Call::Unit { issue: 0, k }, 0)?;
        told(&format!("unit {k}"), unit, &[1, account])?;
    }
    let none = case.expect(Call::Unit { issue: 0, k: accounts.len() as u32 }, 0)?;
    told("the unit past the last", none, &[0])
}

/// The numbers of an answer after its own must be these.
fn told(what: &str, answer: Answer, others: &[u64]) -> Result<(), Failure> {
    if answer.others[..others.len()] == *others {
        return Ok(());
    }
    Err(Failure::Told(format!("{what}: {:?}, by the paper {others:?}", answer.others)))
}

/// The fails of the last cutoff must be these: from, to and lots.
fn fails_are(case: &Case, paper: &[(u8, u8, u32)]) -> Result<(), Failure> {
    let found: Vec<_> = case.book().entries().map(|fail| (fail.from, fail.to, fail.lots)).collect();
    if found == paper {
        return Ok(());
    }
    Err(Failure::Told(format!("fails of dealt units: {found:?}, by the paper {paper:?}")))
}

/// P5 to P8 in the new order: three units, two units, and the same cutoff.
fn worked_day() -> Result<u64, Failure> {
    let mut case = p5_in_turn()?;
    order_is(&mut case, &NEW)?;
    for (account, lots, records) in [(5, 345_000, 3), (4, 200_000, 2)] {
        let call = Call::Deliver { issue: 0, account, lots, out: OUT };
        told("a delivery", case.expect(call, 0)?, &[records])?;
    }
    told("the cutoff", case.expect(Call::Cutoff { out: OUT }, 0)?, &[5])?;
    fails_are(&case, &[(4, 2, 5_000), (4, 3, 25_000), (5, 3, 25_000), (5, 1, 30_000)])?;
    end_day(&mut case)?;
    case.expect(Call::Turn { day: 3 }, 26)?;
    Ok(case.engines.compared)
}

/// A cutoff in the middle of a round: full units that lie apart are one stretch, at the first.
fn gathered() -> Result<u64, Failure> {
    let mut case = p5_in_turn()?;
    case.expect(Call::Deliver { issue: 0, account: 5, lots: 150_000, out: OUT }, 0)?;
    let status = case.expect(Call::Status { issue: 0, k: 4 }, 0)?;
    told("the status of a unit of the second round", status, &[2, 350_000])?;
    told("the cutoff", case.expect(Call::Cutoff { out: OUT }, 0)?, &[8])?;
    let first = [(4, 1, 150_000), (4, 3, 80_000), (5, 3, 20_000), (5, 2, 100_000)];
    let small = [(5, 2, 50_000), (5, 3, 50_000), (5, 1, 30_000)];
    fails_are(&case, &[&first[..], &small].concat())?;
    Ok(case.engines.compared)
}

/// Two dealt units are lifted, one before a delivery and one after it.
fn lifted() -> Result<u64, Failure> {
    let mut case = p5_in_turn()?;
    for (unit, lots, order) in
        [(4, 100_000, [1, 2, 1, 3, 2, 2, 3, 1]), (4, 1, [1, 2, 2, 1, 3, 2, 3, 1])]
    {
        let asked = case.expect(Call::Ask { issue: 0, unit }, 0)?;
        told("the ticket", asked, &[0, 4, order[if lots == 1 { 1 } else { 0 }], 100_000, 1])?;
        let ticket = ask_on_sound(case.book(), 0, unit).ticket;
        case.expect(Call::Commit { ticket, out: OUT }, 0)?;
        order_is(&mut case, &order)?;
        case.expect(Call::Deliver { issue: 0, account: 5, lots, out: OUT }, 0)?;
    }
    case.expect(Call::Cutoff { out: OUT }, 0)?;
    let first = [(4, 2, 199_999), (4, 1, 30_001), (5, 1, 69_999), (5, 3, 100_000)];
    let small = [(5, 2, 50_000), (5, 3, 50_000), (5, 1, 30_000)];
    fails_are(&case, &[&first[..], &small].concat())?;
    Ok(case.engines.compared)
}

/// Every day near today, whatever day was named before, in every phase; today is the first day, one in
/// the middle or the last.
fn edges() -> Result<u64, Mismatch> {
    let mut compared = 0;
    for today in [0, 1, 7, 65_534, 65_535_u16] {
        let now = u32::from(today);
        let near = [0, now.saturating_sub(1), now, now + 1, now + 2, 65_535, 65_536, u32::MAX];
        for phase in [Phase::Taking, Phase::Settling, Phase::Cut] {
            for named in near {
                for day in near {
                    let in_force = named != 0 && named <= now;
                    let number = if day <= now || in_force { 26 } else { 0 };
                    let book = Book { day: today, phase, turn: named, ..Book::fresh() };
                    let mut case = Case::of(book);
                    case.expect(Call::Turn { day }, number)?;
                    case.expect(Call::Turn { day }, number)?;
                    compared += case.engines.compared;
                }
            }
        }
    }
    Ok(compared)
}

/// P5's market on each day, with the change on one of them; `turn` is put three times before it, each
/// time with another day, and once on every day from it on.
fn days_before_and_after(first: u32) -> Result<u64, Failure> {
    let mut case = Case::fresh();
    for day in [first + 3, 65_536, first] {
        case.expect(Call::Turn { day }, 0)?;
    }
    for today in 0..DAYS {
        let new = first <= today;
        trade(&mut case)?;
        order_is(&mut case, if new { &NEW } else { &OLD })?;
        case.expect(Call::Turn { day: first.max(today + 1) }, if new { 26 } else { 0 })?;
        case.expect(Call::Close, 0)?;
        let call = Call::Deliver { issue: 0, account: 5, lots: 50_000 * today + 1, out: OUT };
        case.expect(call, 0)?;
        end_day(&mut case)?;
        case.set(Edit::Mark { issue: 9, mark: 1 })?;
    }
    Ok(case.engines.compared)
}
