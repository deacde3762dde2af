//! A fail inside a trust account: each trade report's share of it, so that the bank can tell its
//! funds (document 001, 2(2)A).

use crate::measures::MOST_LOTS;
use crate::questions::{account_in_range, ask, lots_in_range, output_has};
use std::collections::BTreeMap;

/// The most reports, and the places that the output has at the least.
pub const MOST_REPORTS: usize = 256;
/// The highest number of a sub-account.
pub const LAST_SUB_ACCOUNT: u32 = 31;

/// A trade report of the day in the failed issue.
#[derive(Clone, Copy, Debug, PartialEq, Eq)]
pub struct Report {
    pub sub_account: u32,
    pub counterparty: u32,
    /// Received where above 0, delivered where below.
    pub lots: i32,
    /// Whether a fail has occurred for it previously.
    pub earlier_fail: bool,
}

/// Writes each report's share of the fail to the place of its number; the refusal's number, 0 where
/// it is done. A refusal writes nothing.
pub fn shares(
    reports: &[Report],
    draw: &[u32],
    fail: u32,
    failing: u32,
    output: &mut [u32],
) -> u32 {
    match asked(reports, draw, fail, failing, output) {
        Ok(eligible) => {
            let shares = allotted(reports, &eligible, draw, fail, failing);
            output[..shares.len()].copy_from_slice(&shares);
            0
        }
        Err(number) => number,
    }
}

/// Puts the questions; gives which reports take part.
fn asked(
    reports: &[Report],
    draw: &[u32],
    fail: u32,
    failing: u32,
    output: &[u32],
) -> Result<Vec<bool>, u32> {
    output_has(output, MOST_REPORTS)?;
    account_in_range(failing)?;
    for report in reports {
        account_in_range(report.counterparty)?;
    }
    lots_in_range(fail)?;
    for report in reports {
        ask(7, report.lots.unsigned_abs() <= MOST_LOTS)?;
    }
    ask(21, each_once(draw, reports.len()))?;
    let known = |report: &Report| report.sub_account <= LAST_SUB_ACCOUNT;
    ask(22, reports.len() <= MOST_REPORTS && reports.iter().all(known))?;
    let eligible = eligible(reports);
    let taking = reports.iter().zip(&eligible).filter(|(_, &takes_part)| takes_part);
    let lots: u64 = taking.map(|(report, _)| u64::from(report.lots.unsigned_abs())).sum();
    ask(23, u64::from(fail) <= lots)?;
    Ok(eligible)
}

/// Is the list each of so many report numbers just once?
fn each_once(draw: &[u32], reports: usize) -> bool {
    let mut drawn = draw.to_vec();
    drawn.sort_unstable();
    drawn.len() == reports && drawn.iter().zip(0..).all(|(&number, place)| number == place)
}

/// Which reports take part: no earlier fail, lots above 0, of a sub-account that receives more than
/// it delivers once the two are set off.
fn eligible(reports: &[Report]) -> Vec<bool> {
    let mut nets: BTreeMap<u32, i64> = BTreeMap::new();
    for report in reports.iter().filter(|report| !report.earlier_fail) {
        *nets.entry(report.sub_account).or_default() += i64::from(report.lots);
    }
    let takes_part = |report: &Report| {
        !report.earlier_fail
            && report.lots > 0
            && nets.get(&report.sub_account).is_some_and(|&net| net > 0)
    };
    reports.iter().map(takes_part).collect()
}

/// The shares: first of those that face the failing account, then of the others, each in the drawn
/// order and up to its own lots, until the fail is used up.
fn allotted(
    reports: &[Report],
    eligible: &[bool],
    draw: &[u32],
    fail: u32,
    failing: u32,
) -> Vec<u32> {
    let mut order: Vec<usize> = draw.iter().map(|&number| number as usize).collect();
    order.retain(|&number| eligible[number]);
    order.sort_by_key(|&number| reports[number].counterparty != failing);
    let mut shares = vec![0; reports.len()];
    let mut left = fail;
    for number in order {
        let share = left.min(reports[number].lots.unsigned_abs());
        shares[number] = share;
        left -= share;
    }
    shares
}
