//! Pairs of sound books that are alike to a participant: in phase, day, change-over day, marks and its own
//! nets, delivered lots, charges and entries in their order, and in nothing else that it is drawn to keep.

use crate::books::{lift_some, move_lots, random_lots, suited, two_of, Shape};
use crate::rng::Rng;
use reference::access::Caller;
use reference::book::{place, Book, Entry, Lifts, Phase, ACCOUNTS, ENTRIES, ISSUES};

/// A caller with random owners: mostly a participant with some of the accounts.
pub fn random_caller(rng: &mut Rng, accounts: &[u32]) -> Caller {
    let number = match rng.range(0, 9) {
        0 => *rng.pick(&[17, 18, 255, 256, u32::MAX]),
        1 => 15,
        _ => rng.range(0, 3),
    };
    let mut owners = [255; ACCOUNTS];
    for owner in &mut owners {
        *owner = *rng.pick(&[0, 1, 2, 3, 15, 16, 17, 200]);
    }
    for &account in accounts {
        let own = u8::try_from(number).unwrap_or(255);
        owners[account as usize] = *rng.pick(&[own, own, 16, 1, 2]);
    }
    Caller { number, owners }
}

/// The accounts that are the caller's own.
pub fn own_accounts(caller: &Caller) -> Vec<u32> {
    (0..ACCOUNTS as u32).filter(|&account| caller.owns(account)).collect()
}

/// Another sound book that is alike to the caller.
pub fn alike(rng: &mut Rng, book: &Book, shape: &Shape, caller: &Caller) -> Book {
    let others: Vec<u32> = (0..ACCOUNTS as u32).filter(|&account| !caller.owns(account)).collect();
    let mut other = book.clone();
    for mark in other.marks.iter_mut().filter(|mark| **mark != 0) {
        *mark = *rng.pick(&[1, 2, 128, 255]);
    }
    if others.len() > 1 {
        trade_some(rng, &mut other, shape, &others);
        charge_some(rng, &mut other, &others);
        other_entries(rng, &mut other, shape, caller, &others);
    }
    if other.phase != Phase::Taking {
        deliver_others(rng, &mut other, &others);
        other.lifts = [Lifts::default(); ISSUES];
        shape.issues.iter().for_each(|&issue| lift_some(rng, &mut other, issue as usize));
    }
    if other.sound() {
        other
    } else {
        other.lifts = [Lifts::default(); ISSUES];
        assert!(other.sound(), "a book made alike is not sound");
        other
    }
}

/// Lots moved among the nets of the others; what is delivered of a net that falls short goes.
fn trade_some(rng: &mut Rng, book: &mut Book, shape: &Shape, others: &[u32]) {
    for &issue in &shape.issues {
        for _ in 0..rng.range(0, 4) {
            let (from, to) = two_of(rng, others);
            let lots = suited(book, issue, random_lots(rng, &shape.menu));
            move_lots(book, issue, from, to, lots);
        }
        for &account in others {
            let at = place(issue as usize, account as usize);
            book.delivered[at] = book.delivered[at].min((-book.nets[at]).max(0) as u32);
        }
    }
}

/// What the others delivered: nothing, some or all.
fn deliver_others(rng: &mut Rng, book: &mut Book, others: &[u32]) {
    for issue in 0..ISSUES {
        for &account in others {
            let at = place(issue, account as usize);
            let owed = (-book.nets[at]).max(0) as u32;
            let lots = *rng.pick(&[0, owed, book.delivered[at], owed / 2]);
            book.delivered[at] = suited(book, issue as u32, lots).min(owed);
        }
    }
}

/// Yen moved among the charges of the others, as far as the day's limit allows.
fn charge_some(rng: &mut Rng, book: &mut Book, others: &[u32]) {
    for _ in 0..rng.range(0, 3) {
        let (from, to) = two_of(rng, others);
        let yen = i64::from(rng.next_u32());
        let mut tried = book.clone();
        tried.charges[from as usize] -= yen;
        tried.charges[to as usize] += yen;
        if tried.sound() {
            book.charges = tried.charges;
        }
    }
}

/// Entries of the others taken away and put in, each with a day that stands there; those with an own
/// account at either end stay in their order.
fn other_entries(rng: &mut Rng, book: &mut Book, shape: &Shape, caller: &Caller, others: &[u32]) {
    let own = |e: &Entry| caller.owns(e.from.into()) || caller.owns(e.to.into());
    let mut entries: Vec<Entry> = Vec::new();
    for entry in book.ledger() {
        while rng.chance(1, 6) {
            let (from, to) = two_of(rng, others);
            let issue = *rng.pick(&shape.issues);
            let lots = suited(book, issue, random_lots(rng, &shape.menu));
            let (from, to) = (from as u8, to as u8);
            entries.push(Entry { issue: issue as u8, from, to, lots, day: entry.day });
        }
        if own(&entry) || rng.chance(1, 2) {
            entries.push(entry);
        }
    }
    if entries.len() <= ENTRIES {
        book.set_ledger(&entries);
    }
}

/// Is that what both books have in common?
pub fn is_alike(one: &Book, other: &Book, caller: &Caller) -> bool {
    let accounts = own_accounts(caller);
    let places = |issue: usize| accounts.iter().map(move |&a| place(issue, a as usize));
    let own = |book: &Book| -> Vec<Entry> {
        let is_own = |e: &Entry| caller.owns(e.from.into()) || caller.owns(e.to.into());
        book.entries().filter(is_own).collect()
    };
    let heads = (one.phase, one.day, one.turn) == (other.phase, other.day, other.turn);
    heads
        && (0..ISSUES).all(|issue| one.is_marked(issue) == other.is_marked(issue))
        && (0..ISSUES)
            .flat_map(places)
            .all(|at| (one.nets[at], one.delivered[at]) == (other.nets[at], other.delivered[at]))
        && accounts.iter().all(|&a| one.charges[a as usize] == other.charges[a as usize])
        && own(one) == own(other)
}
