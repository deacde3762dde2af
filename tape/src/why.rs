//! Why the book refuses an instruction: the question that it answers 'no', and the numbers behind it.

use crate::known::Known;
use crate::measure::{Grouped, Lots};
use settlement_day::{Book, Instruction, Refusal, ACCOUNTS, ISSUES};

/// The limits of a roll's numbers.
const MOST_DAYS: u32 = 12;
const MOST_RATE: u32 = 10_000;
const MOST_PRICE: u32 = 200_000;
const MOST_ACCRUED: u32 = 10_000;

/// The refusal with what the book says about it, in one sentence.
pub fn why(
    book: &Book,
    instruction: &Instruction,
    quotes: &[u32],
    refusal: Refusal,
    known: &Known,
) -> String {
    if let (Refusal::Terms, Instruction::Roll { days, rate }) = (refusal, *instruction) {
        let behind = terms(days, rate, quotes, known).unwrap_or_default();
        return format!("{}; {behind}", refusal.said());
    }
    match behind(book, instruction, refusal, known) {
        Some(behind) => format!("{}; {behind}", refusal.said()),
        None => refusal.said(),
    }
}

/// The numbers behind a refusal, where the book or the instruction has them.
fn behind(
    book: &Book,
    instruction: &Instruction,
    refusal: Refusal,
    known: &Known,
) -> Option<String> {
    match (refusal, *instruction) {
        (Refusal::Phase, _) => {
            let (is, wanted) = (book.phase.name()?, phase_of(instruction)?);
            Some(format!("the book is in {is}, {} belongs to {wanted}", instruction.name()))
        }
        (Refusal::Net, Instruction::Trade { issue, from, to, .. }) => {
            let nets = [from, to].map(|account| Grouped(book.net(issue, account).into()));
            let (from, to) = (known.account(from), known.account(to));
            Some(format!("account {from} stands at {}, account {to} at {}", nets[0], nets[1]))
        }
        (Refusal::Owed, _) => owed(book, instruction, known),
        (
            Refusal::OddLots,
            Instruction::Trade { issue, .. }
            | Instruction::Deliver { issue, .. }
            | Instruction::Resolve { issue, .. },
        ) => {
            let issue = known.issue(issue);
            Some(format!("issue {issue} is in multiples of 100,000 yen face: give even lots"))
        }
        (Refusal::InUse, Instruction::Mark { issue, .. }) => Some(in_use(book, issue, known)),
        (Refusal::ChangeOver, _) if book.deals_in_turn() => {
            Some(format!("full units are dealt in turn since day {}", known.day(book.turn)))
        }
        (Refusal::ChangeOver, _) => Some(format!("today is day {}", known.day(book.day))),
        (Refusal::Room, _) => {
            let ies = if book.entries == 1 { "y" } else { "ies" };
            Some(format!("it has {} entr{ies} before the cutoff", book.entries))
        }
        _ => None,
    }
}

/// What the account of an instruction owes: of a delivery today, of a resolve in the ledger.
fn owed(book: &Book, instruction: &Instruction, known: &Known) -> Option<String> {
    match *instruction {
        Instruction::Deliver { issue, account, .. } => {
            let owed = Lots(owed_today(book, issue, account));
            let (issue, account) = (known.issue(issue), known.account(account));
            Some(format!("account {account} still owes {owed} of issue {issue} today"))
        }
        Instruction::Resolve { issue, account, .. } => {
            let owed = Lots(owed_in_ledger(book, issue, account));
            let (issue, account) = (known.issue(issue), known.account(account));
            Some(format!("account {account} owes {owed} of issue {issue} in the ledger"))
        }
        _ => None,
    }
}

/// The first number of a roll that is out of range.
fn terms(days: u32, rate: u32, quotes: &[u32], known: &Known) -> Option<String> {
    if !(1..=MOST_DAYS).contains(&days) {
        return Some(format!("days are {days}"));
    }
    if rate > MOST_RATE {
        return Some(format!("the rate is {}", Grouped(rate.into())));
    }
    let (prices, accrued) = quotes.split_at(ISSUES.min(quotes.len()));
    (0_u32..).zip(prices.iter().zip(accrued)).find_map(|(issue, (&price, &accrued))| {
        let issue = known.issue(issue);
        if !(1..=MOST_PRICE).contains(&price) {
            return Some(format!("the price of issue {issue} is {}", Grouped(price.into())));
        }
        if accrued > MOST_ACCRUED {
            let accrued = Grouped(accrued.into());
            return Some(format!("the accrued amount of issue {issue} is {accrued}"));
        }
        let sum = price + accrued;
        let told = Grouped(sum.into());
        let what = format!("price and accrued amount of issue {issue} are together {told}");
        (sum > MOST_PRICE).then_some(what)
    })
}

/// The phase that a call belongs to, if it is one alone.
fn phase_of(instruction: &Instruction) -> Option<&'static str> {
    match instruction {
        Instruction::Trade { .. } | Instruction::Close => Some("Taking"),
        Instruction::Deliver { .. } | Instruction::Cutoff => Some("Settling"),
        Instruction::Roll { .. } => Some("Cut"),
        Instruction::Resolve { .. }
        | Instruction::PairOff { .. }
        | Instruction::Mark { .. }
        | Instruction::Turn { .. } => None,
    }
}

/// How many accounts have a net in an issue, and how many entries it has.
fn in_use(book: &Book, issue: u32, known: &Known) -> String {
    let nets = (0..ACCOUNTS as u32).filter(|&account| book.net(issue, account) != 0).count();
    let entries = book.ledger().filter(|entry| u32::from(entry.issue) == issue).count();
    let (s, ies) = (if nets == 1 { "" } else { "s" }, if entries == 1 { "y" } else { "ies" });
    let issue = known.issue(issue);
    format!("issue {issue} has nets of {nets} account{s} and {entries} entr{ies} in the ledger")
}

/// What an account still owes today in an issue: −net less delivered, if the net is negative.
pub fn owed_today(book: &Book, issue: u32, account: u32) -> u64 {
    let owed = -i64::from(book.net(issue, account));
    u64::try_from(owed - i64::from(book.delivered(issue, account))).unwrap_or(0)
}

/// What an account owes in the ledger in an issue.
pub fn owed_in_ledger(book: &Book, issue: u32, account: u32) -> u64 {
    let of = |entry: &settlement_day::Entry| {
        u32::from(entry.issue) == issue && u32::from(entry.from) == account
    };
    book.ledger().filter(of).map(|entry| u64::from(entry.lots)).sum()
}
