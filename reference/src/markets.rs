//! Every small market, each once: all nets of a few accounts that sum to 0, in rising order, and how many
//! of them have how many fail entries after cutoff.

use crate::book::{place, Book, Phase};
use crate::calls;
use crate::questions::{ask, CALL_OUTPUT};
use std::collections::BTreeSet;

/// The most accounts of a market, and the most of a net to either side.
const MOST_ACCOUNTS: u32 = 5;
const MOST_NET: u32 = 4;
/// The places that a lent output has at the least.
pub const PLACES: usize = 19_755;
/// Markets are counted by 0 to 4 fail entries.
pub const COUNTS: usize = 5;

/// The markets of so many accounts with nets of at most so much to either side. A market comes of one
/// before it by moving a lot from one account to another, the first of all being that of no nets; a set
/// keeps them in rising order.
pub fn markets(accounts: u32, most: u32) -> Result<Vec<Vec<i32>>, u32> {
    ask_small(accounts, most)?;
    let none: Vec<i32> = vec![0; accounts as usize];
    let mut found = BTreeSet::from([none.clone()]);
    let mut to_visit = vec![none];
    while let Some(market) = to_visit.pop() {
        for from in 0..market.len() {
            for to in 0..market.len() {
                let mut next = market.clone();
                next[from] -= 1;
                next[to] += 1;
                if next.iter().all(|net| net.unsigned_abs() <= most) && found.insert(next.clone()) {
                    to_visit.push(next);
                }
            }
        }
    }
    Ok(found.into_iter().collect())
}

/// Writes the markets one after the other into an output of at least 19,755 places; gives their number.
pub fn list(accounts: u32, most: u32, output: &mut [i32]) -> Result<usize, u32> {
    ask(1, output.len() >= PLACES)?;
    let markets = markets(accounts, most)?;
    for (place, net) in output.iter_mut().zip(markets.iter().flatten()) {
        *place = *net;
    }
    Ok(markets.len())
}

/// How many of the markets in which each account owes at least its lots have 0, 1, 2, 3, 4 fail entries:
/// each goes through a book of its own.
pub fn fails(accounts: u32, most: u32, delivered: &[u32]) -> Result<[u32; COUNTS], u32> {
    ask_small(accounts, most)?;
    ask(7, delivered.len() == accounts as usize)?;
    let mut counts = [0; COUNTS];
    for market in markets(accounts, most)? {
        let owes = |(&net, &lots): (&i32, &u32)| i64::from(lots) <= -i64::from(net.min(0));
        if market.iter().zip(delivered).all(owes) {
            counts[entries_after_cutoff(&market, delivered)] += 1;
        }
    }
    Ok(counts)
}

/// 7. Are there at most 5 accounts, and nets of at most 4 to either side?
fn ask_small(accounts: u32, most: u32) -> Result<(), u32> {
    ask(7, accounts <= MOST_ACCOUNTS)?;
    ask(7, most <= MOST_NET)
}

/// The entries that cutoff puts into the ledger of a book with this market in issue 0 and these lots
/// delivered.
fn entries_after_cutoff(market: &[i32], delivered: &[u32]) -> usize {
    let mut book = Book { phase: Phase::Settling, ..Book::fresh() };
    for (account, (&net, &lots)) in market.iter().zip(delivered).enumerate() {
        book.nets[place(0, account)] = net;
        book.delivered[place(0, account)] = lots;
    }
    calls::cutoff(&mut book, &mut [0; CALL_OUTPUT]);
    book.ledger().len()
}
