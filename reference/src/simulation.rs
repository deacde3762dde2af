//! Trying unit sizes on a simulated desk: netting accounts share settlement accounts, and each
//! delivers what its settlement account holds, in turn, until a round goes by without a delivery.

use crate::book::{place, Book, ACCOUNTS, ISSUES};
use crate::measures::{MOST_LOTS, UNIT_LOTS};
use crate::questions::{ask, book_is_sound, Soundness};
use std::cmp::Reverse;

/// Settlement accounts 0 to 15.
pub const SETTLEMENT_ACCOUNTS: usize = 16;

/// What is tried: the settlement account of each netting account, the opening inventory of each issue
/// in each settlement account (at issue × 16 + settlement account), and the size of a unit.
#[derive(Clone, Debug, PartialEq, Eq)]
pub struct Plan {
    pub settlement: Vec<u32>,
    pub inventories: Vec<u32>,
    pub size: u32,
}

/// What came of it: deliveries made, rounds (the last one, without a delivery, among them) and the
/// lots still owed of each issue.
#[derive(Clone, Copy, Debug, Default, PartialEq, Eq)]
pub struct Outcome {
    pub deliveries: u64,
    pub rounds: u64,
    pub owed: [u64; ISSUES],
}

/// How the units of an issue are kept: as runs of equal units, or one by one.
#[derive(Clone, Copy, Debug, PartialEq, Eq)]
pub enum Units {
    Runs,
    OneByOne,
}

/// Simulates the plan on a book's nets; the refusal's number where a question is answered 'no'.
pub fn simulate(book: &Book, plan: &Plan, units: Units) -> Result<Outcome, u32> {
    book_is_sound(book, Soundness::Asked)?;
    let known = |&account: &u32| account < SETTLEMENT_ACCOUNTS as u32;
    ask(5, plan.settlement.len() == ACCOUNTS && plan.settlement.iter().all(known))?;
    ask(7, (1..=UNIT_LOTS).contains(&plan.size))?;
    let held = |&lots: &u32| lots <= MOST_LOTS;
    let places = ISSUES * SETTLEMENT_ACCOUNTS;
    ask(7, plan.inventories.len() == places && plan.inventories.iter().all(held))?;
    Ok(Desk::open(book, plan, units).run())
}

/// Units of one account and one size that stand side by side.
#[derive(Clone, Copy, Debug)]
struct Run {
    account: usize,
    lots: u64,
    number: u64,
}

/// The desk of one issue: what accounts still owe, what settlement accounts hold, the units that
/// wait, the next one last, and the lots that the house holds.
struct IssueDesk {
    owed: Vec<u64>,
    inventories: Vec<u64>,
    waiting: Vec<Run>,
    stock: u64,
}

struct Desk {
    settlement: Vec<usize>,
    issues: Vec<IssueDesk>,
}

impl Desk {
    /// Before the first round.
    fn open(book: &Book, plan: &Plan, units: Units) -> Desk {
        let issue = |issue: usize| {
            let nets = &book.nets[place(issue, 0)..place(issue, ACCOUNTS)];
            let first = issue * SETTLEMENT_ACCOUNTS;
            let held = &plan.inventories[first..first + SETTLEMENT_ACCOUNTS];
            IssueDesk {
                owed: nets.iter().map(|&net| u64::from(net.min(0).unsigned_abs())).collect(),
                inventories: held.iter().map(|&lots| u64::from(lots)).collect(),
                waiting: waiting(nets, u64::from(plan.size), units),
                stock: 0,
            }
        };
        let settlement = plan.settlement.iter().map(|&account| account as usize).collect();
        Desk { settlement, issues: (0..ISSUES).map(issue).collect() }
    }

    /// Round after round, until one has no delivery.
    fn run(mut self) -> Outcome {
        let mut outcome = Outcome::default();
        loop {
            let made = self.round();
            outcome.deliveries += made;
            outcome.rounds += 1;
            if made == 0 {
                break;
            }
        }
        for (owed, issue) in outcome.owed.iter_mut().zip(&self.issues) {
            *owed = issue.owed.iter().sum();
        }
        outcome
    }

    /// One round, by account and then issue; the deliveries made.
    fn round(&mut self) -> u64 {
        let mut made = 0;
        for account in 0..ACCOUNTS {
            for issue in &mut self.issues {
                made += u64::from(issue.turn(account, &self.settlement));
            }
        }
        made
    }
}

impl IssueDesk {
    /// An account's turn; whether it delivered.
    fn turn(&mut self, account: usize, settlement: &[usize]) -> bool {
        let inventory = &mut self.inventories[settlement[account]];
        let lots = (*inventory).min(self.owed[account]);
        *inventory -= lots;
        self.owed[account] -= lots;
        self.stock += lots;
        while let Some(run) = self.waiting.last_mut() {
            let number = run.number.min(self.stock / run.lots);
            run.number -= number;
            self.stock -= number * run.lots;
            self.inventories[settlement[run.account]] += number * run.lots;
            if run.number > 0 {
                break;
            }
            self.waiting.pop();
        }
        lots > 0
    }
}

/// The units of a list of nets, the first of the order last: full ones by net, small ones by size,
/// largest first, equals by lower account.
fn waiting(nets: &[i32], size: u64, units: Units) -> Vec<Run> {
    let mut ranked = Vec::new();
    for (account, &net) in nets.iter().enumerate().filter(|(_, &net)| net > 0) {
        let net = u64::from(net.unsigned_abs());
        let (number, rest) = (net / size, net % size);
        let full = Run { account, lots: size, number };
        ranked.push(((Reverse(true), Reverse(net), account), full));
        ranked.push((
            (Reverse(false), Reverse(rest), account),
            Run { account, lots: rest, number: 1 },
        ));
    }
    ranked.retain(|(_, run)| run.lots > 0 && run.number > 0);
    ranked.sort_by_key(|&(rank, _)| rank);
    let mut runs = Vec::new();
    for (_, run) in ranked {
        match units {
            Units::Runs => runs.push(run),
            Units::OneByOne => runs.extend((0..run.number).map(|_| Run { number: 1, ..run })),
        }
    }
    runs.reverse();
    runs
}
