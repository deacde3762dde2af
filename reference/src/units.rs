//! Units and their order: what each receiver of an issue is handed, one unit after another.

use crate::book::{Book, Lift};
use crate::measures::UNIT_LOTS;
use std::cmp::Ordering;
use std::collections::VecDeque;

/// One unit of a receiver, with the receiver's net.
#[derive(Clone, Copy, Debug, PartialEq, Eq)]
pub struct Unit {
    pub account: u32,
    pub lots: u32,
    pub full: bool,
    pub net: u32,
}

/// The units of a list of nets by account, in order, nothing lifted.
pub fn units(nets: &[i32]) -> Vec<Unit> {
    let mut units = Vec::new();
    for (account, &net) in (0..).zip(nets) {
        if net > 0 {
            add_units_of(account, net.unsigned_abs(), &mut units);
        }
    }
    units.sort_by(order);
    units
}

/// The same units with the full ones dealt in turn: one to each receiver in each round, receivers as
/// they stand in the other order, until all are dealt. Small units keep their order.
pub fn dealt(nets: &[i32]) -> Vec<Unit> {
    let (full, small): (Vec<Unit>, Vec<Unit>) = units(nets).into_iter().partition(|unit| unit.full);
    let mut hands: Vec<VecDeque<Unit>> = Vec::new();
    for unit in full {
        match hands.last_mut() {
            Some(hand) if hand[0].account == unit.account => hand.push_back(unit),
            _ => hands.push(VecDeque::from([unit])),
        }
    }
    let mut order = Vec::new();
    while hands.iter().any(|hand| !hand.is_empty()) {
        order.extend(hands.iter_mut().filter_map(VecDeque::pop_front));
    }
    order.extend(small);
    order
}

/// The units of an issue in the order of the day, nothing lifted.
pub fn order_of(book: &Book, issue: usize) -> Vec<Unit> {
    let nets = book.nets_of(issue);
    if book.deals_in_turn() {
        dealt(nets)
    } else {
        units(nets)
    }
}

/// The units of an issue in the order of the day: each lift moves a unit of the order before it.
pub fn units_of(book: &Book, issue: usize) -> Vec<Unit> {
    let mut units = order_of(book, issue);
    for lift in book.lifts[issue].standing() {
        move_unit(&mut units, lift);
    }
    units
}

/// Takes the unit at the old place out and puts it in at the new one; a lift whose places are not
/// right moves nothing.
fn move_unit(units: &mut Vec<Unit>, lift: &Lift) {
    let (old, new) = (lift.old as usize, lift.new as usize);
    if new <= old && old < units.len() {
        let unit = units.remove(old);
        units.insert(new, unit);
    }
}

/// The k-th unit of an issue, k from 0.
pub fn kth_unit(book: &Book, issue: usize, k: u32) -> Option<Unit> {
    units_of(book, issue).get(usize::try_from(k).ok()?).copied()
}

/// The units that a delivered total covers, handed over whole in order, and the stock that is left.
pub fn handed(units: &[Unit], delivered: u64) -> (usize, u64) {
    let mut count = 0;
    let mut stock = delivered;
    while count < units.len() && stock >= u64::from(units[count].lots) {
        stock -= u64::from(units[count].lots);
        count += 1;
    }
    (count, stock)
}

/// A receiver has net / 100,000 full units and one small unit of the rest if that is not 0.
fn add_units_of(account: u32, net: u32, units: &mut Vec<Unit>) {
    for _ in 0..net / UNIT_LOTS {
        units.push(Unit { account, lots: UNIT_LOTS, full: true, net });
    }
    let rest = net % UNIT_LOTS;
    if rest != 0 {
        units.push(Unit { account, lots: rest, full: false, net });
    }
}

/// Full units first, by net; small units follow, by size; largest first, equals by lower account.
fn order(one: &Unit, other: &Unit) -> Ordering {
    match (one.full, other.full) {
        (true, false) => Ordering::Less,
        (false, true) => Ordering::Greater,
        (true, true) => other.net.cmp(&one.net).then(one.account.cmp(&other.account)),
        (false, false) => other.lots.cmp(&one.lots).then(one.account.cmp(&other.account)),
    }
}
