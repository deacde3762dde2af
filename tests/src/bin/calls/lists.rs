//! Part lists: long random lists of calls with few accounts and issues.
//!
//! So ties, partial units, chains and rings of fails, refused calls and full ledgers occur; how
//! often each number and situation was met is counted, and one never met fails the run.

use crate::Failure;
use reference::book::{Phase, ACCOUNTS};
use reference::measures::same_quotes;
use tests::books::{random_book, Shape};
use tests::case::Case;
use tests::random_calls::random_call;
use tests::random_lifts::Tickets;
use tests::report::Mismatch;
use tests::rng::Rng;
use tests::situations::{Coverage, Made};
use tests::steps::{Call, Edit};

/// The longest list of the random ones.
const LONGEST: u32 = 300;

/// Runs the lists; gives the answers compared.
pub fn run(seed: u64, cases: u64) -> Result<u64, Failure> {
    let mut coverage = Coverage::default();
    let mut compared = fill_by_calls(&mut coverage)?;
    for at in 0..cases {
        let mut rng = Rng::of_case(seed, at);
        compared += random_list(&mut rng, &mut coverage)?;
        if at % 500 == 499 {
            eprintln!("lists: {} of {cases} lists agree", at + 1);
        }
    }
    let met = coverage.report().map_err(Failure::Told)?;
    eprintln!("lists: met so often\n{met}");
    Ok(compared)
}

/// Fills the ledger to exactly 2,048 entries by calls alone; then one more is refused.
fn fill_by_calls(coverage: &mut Coverage) -> Result<u64, Mismatch> {
    let mut case = Case::fresh();
    for fails in [1_008, 1_000, 40, 1] {
        for at in 0..fails {
            let (issue, to) = (at / 63, 1 + at % 63);
            make(&mut case, coverage, Call::Trade { issue, from: 0, to, lots: 1 + at % 3 })?;
        }
        make(&mut case, coverage, Call::Close)?;
        make(&mut case, coverage, Call::Cutoff { out: 4_096 })?;
        make(
            &mut case,
            coverage,
            Call::Roll { days: 1, rate: 10_000, quotes: same_quotes(99_999, 0).to_vec() },
        )?;
    }
    let full = case.book().count == 2_048 && case.book().phase == Phase::Settling;
    assert!(full, "the ledger is filled by calls to 2,048 entries, and then cutoff is refused");
    for account in [0, 5] {
        make(&mut case, coverage, Call::Resolve { issue: 0, account, lots: 1, out: 4_096 })?;
    }
    make(&mut case, coverage, Call::Cutoff { out: 4_096 })?;
    Ok(case.engines.compared)
}

/// One random list on a fresh or a random book.
fn random_list(rng: &mut Rng, coverage: &mut Coverage) -> Result<u64, Mismatch> {
    let shape = Shape::few(rng);
    let mut case =
        if rng.chance(1, 2) { Case::fresh() } else { Case::of(random_book(rng, &shape)) };
    let mut tickets = Tickets::default();
    let lifting = *rng.pick(&[0, 1, 4, 8]);
    for _ in 0..rng.range(30, LONGEST) {
        let of_ten = if case.book().phase == Phase::Settling { lifting } else { lifting.min(1) };
        let call = if rng.chance(of_ten, 10) {
            tickets.random_call(rng, &shape, case.book())
        } else {
            random_call(rng, &shape, case.book())
        };
        if rng.chance(1, 60) {
            damaged(rng, &mut case, coverage, call)?;
        } else {
            make(&mut case, coverage, call)?;
        }
    }
    Ok(case.engines.compared)
}

/// Makes a call and notes what was met.
fn make(case: &mut Case, coverage: &mut Coverage, call: Call) -> Result<(), Mismatch> {
    let answer = case.call(call.clone())?;
    let (before, after) = (&case.engines.before, &case.engines.reference);
    coverage.note(&Made { before, after, call: &call, answer });
    Ok(())
}

/// Makes a call on the book with one charge damaged, and mends the charge.
fn damaged(
    rng: &mut Rng,
    case: &mut Case,
    coverage: &mut Coverage,
    call: Call,
) -> Result<(), Mismatch> {
    let account = rng.range(0, ACCOUNTS as u32 - 1) as usize;
    let yen = case.book().charges[account];
    case.set(Edit::Charge { account, yen: yen ^ 1 })?;
    make(case, coverage, call)?;
    case.set(Edit::Charge { account, yen }).map(|_| ())
}
