//! Part markets: all small markets of up to four accounts, each with a set of deliveries.
//!
//! Each goes through close, deliver, cutoff and resolve, then a day with the nets turned round and
//! nothing delivered, so that fails go both ways, and pair-off and roll. Each is run in both orders;
//! on the second day of every other one the new order begins.

use crate::Failure;
use reference::book::{place, Book};
use reference::measures::same_quotes;
use tests::case::Case;
use tests::report::Mismatch;
use tests::steps::{Call, Edit};

/// The nets of the markets: none, and both sides of each edge of a unit.
const SIZES: [i32; 8] = [1, 50_000, 99_999, 100_000, 100_001, 150_000, 200_000, 250_000];
/// Accounts that stand for the four, so that the first and the last are among them.
const ACCOUNTS: [u32; 4] = [0, 1, 31, 63];
/// The words of an output.
const OUT: usize = 4_096;
/// What each deliverer delivers of what it owes.
const PATTERNS: [[Part; 3]; 8] = [
    [Part::Nothing, Part::Nothing, Part::Nothing],
    [Part::All, Part::All, Part::All],
    [Part::All, Part::Nothing, Part::Half],
    [Part::Half, Part::Half, Part::Half],
    [Part::One, Part::AllButOne, Part::Nothing],
    [Part::AllButOne, Part::One, Part::All],
    [Part::Unit, Part::AllButOne, Part::One],
    [Part::Nothing, Part::Unit, Part::All],
];

/// A part of what is owed.
#[derive(Clone, Copy)]
enum Part {
    Nothing,
    One,
    Half,
    Unit,
    AllButOne,
    All,
}

impl Part {
    /// The lots of this part.
    fn of(self, owed: u32) -> u32 {
        match self {
            Part::Nothing => 0,
            Part::One => 1,
            Part::Half => owed / 2,
            Part::Unit => owed.min(100_000),
            Part::AllButOne => owed - 1,
            Part::All => owed,
        }
    }
}

/// Runs every market with every pattern; gives the answers compared.
pub fn run(_seed: u64, _cases: u64) -> Result<u64, Failure> {
    let markets = all_markets();
    let mut compared = 0;
    for (at, market) in markets.iter().enumerate() {
        for (which, pattern) in PATTERNS.iter().enumerate() {
            let odd = (at + which) % 2 == 1;
            for first_day in [0, 1] {
                compared += run_market(market, pattern, odd, first_day)?;
            }
        }
    }
    eprintln!("markets: {} markets, each with {} deliveries", markets.len(), PATTERNS.len());
    Ok(compared)
}

/// All nets of four accounts out of the list that sum to 0; a net of 0 leaves an account out.
fn all_markets() -> Vec<[i32; 4]> {
    let nets: Vec<i32> =
        SIZES.iter().flat_map(|&size| [-size, size]).chain(std::iter::once(0)).collect();
    let mut markets = Vec::new();
    for &a in &nets {
        for &b in &nets {
            for &c in &nets {
                if nets.contains(&-(a + b + c)) {
                    markets.push([a, b, c, -(a + b + c)]);
                }
            }
        }
    }
    markets
}

/// One market with one pattern: two days, the second with the nets turned round. A first day of the new
/// order of 0 is none; then it is the second day, if deliveries go down.
fn run_market(
    market: &[i32; 4],
    pattern: &[Part; 3],
    down: bool,
    first_day: u32,
) -> Result<u64, Mismatch> {
    let mut case = Case::of(Book { turn: first_day, ..book_of(market) });
    if down {
        case.expect(Call::Turn { day: 2 }, if first_day == 0 { 0 } else { 26 })?;
    }
    case.expect(Call::Close, 0)?;
    ask_units(&mut case)?;
    deliver_all(&mut case, pattern, down)?;
    case.expect(Call::Cutoff { out: OUT }, 0)?;
    resolve_some(&mut case)?;
    case.expect(Call::Roll { days: 3, rate: 411, quotes: same_quotes(99_999, 0).to_vec() }, 0)?;
    let turned: Vec<i32> = market.iter().map(|net| -net).collect();
    for (account, lots) in ACCOUNTS.iter().zip(turned) {
        case.set(Edit::Net { issue: 5, account: *account as usize, lots })?;
    }
    case.expect(Call::Close, 0)?;
    case.expect(Call::Cutoff { out: OUT }, 0)?;
    for account in ACCOUNTS {
        case.expect(Call::PairOff { issue: 5, account }, 0)?;
    }
    case.expect(Call::Roll { days: 12, rate: 10_000, quotes: same_quotes(1, 0).to_vec() }, 0)?;
    Ok(case.engines.compared)
}

/// A book of day 1 with these nets in issue 5.
fn book_of(market: &[i32; 4]) -> Book {
    let mut book = Book { day: 1, ..Book::fresh() };
    for (&account, &net) in ACCOUNTS.iter().zip(market) {
        book.nets[place(5, account as usize)] = net;
    }
    book
}

/// Asks the first units of the issue.
fn ask_units(case: &mut Case) -> Result<(), Mismatch> {
    for k in 0..4 {
        case.call(Call::Unit { issue: 5, k })?;
    }
    Ok(())
}

/// Each deliverer delivers its part of the pattern, upwards or downwards.
fn deliver_all(case: &mut Case, pattern: &[Part; 3], down: bool) -> Result<(), Mismatch> {
    let owed = |account: u32| case.book().owed_today(5, account as usize) as u32;
    let mut deliveries: Vec<(u32, u32)> =
        ACCOUNTS.iter().map(|&account| (account, owed(account))).filter(|&(_, o)| o > 0).collect();
    if down {
        deliveries.reverse();
    }
    for ((account, owed), part) in deliveries.into_iter().zip(pattern) {
        let lots = part.of(owed);
        if lots > 0 {
            case.expect(Call::Deliver { issue: 5, account, lots, out: OUT }, 0)?;
        }
    }
    Ok(())
}

/// The first failing account resolves all but one lot, the last its first entry.
fn resolve_some(case: &mut Case) -> Result<(), Mismatch> {
    let ledger = case.book().ledger();
    let Some((first, last)) = ledger.first().zip(ledger.last()) else { return Ok(()) };
    let account = u32::from(last.from);
    case.expect(Call::Resolve { issue: 5, account, lots: last.lots, out: OUT }, 0)?;
    let account = u32::from(first.from);
    let owed = case.book().owed_in_ledger(5, account) as u32;
    if owed > 1 {
        case.expect(Call::Resolve { issue: 5, account, lots: owed - 1, out: OUT }, 0)?;
    }
    Ok(())
}
