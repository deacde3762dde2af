//! Part status: why units have not come, on random books with lifts, in Settling and in Cut.
//!
//! Beside the second engine's answers it is tried what they say: with one lot less than a unit waits for
//! it is not handed, with the last one it is; after a cutoff the lots lacking over all units of an account
//! are the fails that the cutoff made to it, and resolves and pair-offs change no answer.

use crate::units::{random_nets, BEYOND};
use crate::Failure;
use reference::book::{Book, Phase, ACCOUNTS, ISSUES};
use reference::units::{handed, units_of};
use tests::case::Case;
use tests::engines::Answer;
use tests::rng::Rng;
use tests::steps::Call;

/// The words of an output.
const OUT: usize = 4_096;
/// The cases of an answer.
const HANDED: u64 = 1;
const WAITING: u64 = 2;
const PARTLY_FAILED: u64 = 3;
const WHOLLY_FAILED: u64 = 4;

/// Runs the worked days and random books; gives the answers compared.
pub fn run(seed: u64, cases: u64) -> Result<u64, Failure> {
    let mut compared = settled_days()?;
    for at in 0..cases {
        let mut rng = Rng::of_case(seed ^ 0x7374_6174, at);
        let issue = rng.range(0, ISSUES as u32 - 1);
        let book = random_nets(&mut rng, issue);
        compared += ask_some(&mut rng, &book, issue)?;
        if book.phase == Phase::Settling {
            compared += deliver_up_to(&mut rng, &book, issue)?;
            compared += cut(&mut rng, &book, issue)?;
        }
    }
    Ok(compared)
}

/// Asks the edges, some other units, and beyond.
fn ask_some(rng: &mut Rng, book: &Book, issue: u32) -> Result<u64, Failure> {
    let units = units_of(book, issue as usize);
    let (count, _) = handed(&units, book.delivered_total(issue as usize));
    let (next, number) = (count as u32, units.len() as u32);
    let mut asked = vec![0, next.wrapping_sub(1), next, next + 1, number.wrapping_sub(1), number];
    asked.extend((0..8).map(|_| rng.range(0, number)));
    asked.extend(BEYOND);
    let mut case = Case::of(book.clone());
    for k in asked {
        let no = match book.phase {
            Phase::Taking => 3,
            _ if k < number => 0,
            _ => 16,
        };
        case.expect(Call::Status { issue, k }, no)?;
    }
    Ok(case.engines.compared)
}

/// A unit that waits: all but one of its lots are delivered, then the last one.
fn deliver_up_to(rng: &mut Rng, book: &Book, issue: u32) -> Result<u64, Failure> {
    let units = units_of(book, issue as usize);
    let (count, _) = handed(&units, book.delivered_total(issue as usize));
    if count == units.len() {
        return Ok(0);
    }
    let k = rng.range(count as u32, units.len() as u32 - 1);
    let mut case = Case::of(book.clone());
    let before = case.expect(Call::Status { issue, k }, 0)?;
    let lots = before.others[1];
    told("a unit that waits", before, &[WAITING, lots])?;
    deliver(&mut case, issue, lots - 1)?;
    let one_less = case.expect(Call::Status { issue, k }, 0)?;
    told("with one lot less than it waits for", one_less, &[WAITING, 1])?;
    deliver(&mut case, issue, 1)?;
    let done = case.expect(Call::Status { issue, k }, 0)?;
    told("with all lots that it waits for", done, &[HANDED, 0])?;
    Ok(case.engines.compared)
}

/// Deliveries of so many lots together, by those that owe them.
fn deliver(case: &mut Case, issue: u32, lots: u64) -> Result<(), Failure> {
    let mut left = lots;
    for account in 0..ACCOUNTS as u32 {
        let owed = case.book().owed_today(issue as usize, account as usize);
        let lots = owed.min(left);
        if lots > 0 {
            let call = Call::Deliver { issue, account, lots: lots as u32, out: OUT };
            case.expect(call, 0)?;
            left -= lots;
        }
    }
    told_number("lots that nobody owes", left, 0)
}

/// A cutoff, resolves and pair-offs: what each account lacks is what it was failed, and stays so.
fn cut(rng: &mut Rng, book: &Book, issue: u32) -> Result<u64, Failure> {
    let mut case = Case::of(book.clone());
    case.expect(Call::Cutoff { out: OUT }, 0)?;
    let lacks = lacking(&mut case, issue)?;
    for (account, &lots) in lacks.iter().enumerate() {
        let failed = case.book().entries().filter(|entry| usize::from(entry.to) == account);
        let failed: u64 = failed.map(|entry| u64::from(entry.lots)).sum();
        told_number(&format!("lots lacking of account {account}"), lots, failed)?;
    }
    for _ in 0..rng.range(1, 4) {
        let Some(entry) = case.book().entries().next() else { break };
        let account = entry.from.into();
        let lots = rng.range(1, entry.lots);
        case.expect(Call::Resolve { issue, account, lots, out: OUT }, 0)?;
        case.expect(Call::PairOff { issue, account: entry.to.into() }, 0)?;
    }
    let later = lacking(&mut case, issue)?;
    told_number("accounts whose lacking lots a resolve changed", differences(&lacks, &later), 0)?;
    Ok(case.engines.compared)
}

/// The lots lacking of each account, over all units of the issue, by what is told of each.
fn lacking(case: &mut Case, issue: u32) -> Result<Vec<u64>, Failure> {
    let units = units_of(case.book(), issue as usize);
    let mut lacks = vec![0; ACCOUNTS];
    for (k, unit) in (0..).zip(&units) {
        let answer = case.expect(Call::Status { issue, k }, 0)?;
        lacks[unit.account as usize] += match answer.others[0] {
            PARTLY_FAILED => answer.others[1],
            WHOLLY_FAILED => u64::from(unit.lots),
            _ => 0,
        };
    }
    Ok(lacks)
}

/// How many numbers of two lists differ.
fn differences(one: &[u64], other: &[u64]) -> u64 {
    one.iter().zip(other).filter(|(one, other)| one != other).count() as u64
}

/// P6: unit 3 waits for 55,000 lots; P8: unit 5 partly failed 5,000, units 6 and 7 wholly.
fn settled_days() -> Result<u64, Failure> {
    let mut case = Case::fresh();
    for (from, to, lots) in [(4, 1, 230_000), (5, 2, 250_000), (5, 3, 150_000)] {
        case.expect(Call::Trade { issue: 0, from, to, lots }, 0)?;
    }
    case.expect(Call::Status { issue: 0, k: 0 }, 3)?;
    case.expect(Call::Close, 0)?;
    case.expect(Call::Deliver { issue: 0, account: 5, lots: 345_000, out: OUT }, 0)?;
    all_told(&mut case, &[(2, HANDED, 0), (3, WAITING, 55_000), (7, WAITING, 285_000)])?;
    case.expect(Call::Deliver { issue: 0, account: 4, lots: 200_000, out: OUT }, 0)?;
    all_told(&mut case, &[(4, HANDED, 0), (5, WAITING, 5_000), (6, WAITING, 55_000)])?;
    case.expect(Call::Cutoff { out: OUT }, 0)?;
    let cut =
        [(4, HANDED, 0), (5, PARTLY_FAILED, 5_000), (6, WHOLLY_FAILED, 0), (7, WHOLLY_FAILED, 0)];
    all_told(&mut case, &cut)?;
    case.expect(Call::Resolve { issue: 0, account: 4, lots: 6_000, out: OUT }, 0)?;
    all_told(&mut case, &cut)?;
    case.expect(Call::Status { issue: 0, k: 8 }, 16)?;
    Ok(case.engines.compared)
}

/// Units of issue 0 with their cases and lots.
fn all_told(case: &mut Case, units: &[(u32, u64, u64)]) -> Result<(), Failure> {
    units.iter().try_for_each(|&(k, number, lots)| {
        let answer = case.expect(Call::Status { issue: 0, k }, 0)?;
        told(&format!("unit {k} of the settled day"), answer, &[number, lots])
    })
}

/// The numbers of an answer after its own must be these.
fn told(what: &str, answer: Answer, others: &[u64]) -> Result<(), Failure> {
    if answer.others[..others.len()] == *others {
        return Ok(());
    }
    Err(Failure::Told(format!("{what}: {:?}, by the paper {others:?}", answer.others)))
}

/// A number must be this one.
fn told_number(what: &str, number: u64, paper: u64) -> Result<(), Failure> {
    if number == paper {
        return Ok(());
    }
    Err(Failure::Told(format!("{what}: {number}, by the paper {paper}")))
}
