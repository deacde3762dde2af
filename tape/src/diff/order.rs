//! The order of an issue's units on a day, and where two orders part.

use crate::dealt::Rounds;
use crate::units::FULL;
use settlement_day::calls::Unit;

/// The most accounts of an order that are told, units that follow one another of one account together.
const MOST_ACCOUNTS: usize = 12;

/// The units of an issue in their order.
#[derive(Clone, Debug, Default, PartialEq, Eq)]
pub struct Order(Vec<Block>);

/// Units one after another, so many and of so many lots each: those of one account, or dealt in turn to several.
#[derive(Clone, Debug, PartialEq, Eq)]
struct Block {
    count: u32,
    accounts: Vec<u32>,
    lots: u32,
}

/// Where two orders part: the first unit that differs, in both, and whose the units from there on are.
#[derive(Clone, Debug, PartialEq, Eq)]
pub struct Parting {
    pub unit: u32,
    pub units: [Option<Unit>; 2],
    pub receivers: [Receivers; 2],
}

/// The accounts of units in their order, each with how many units follow one another; and how many units more
/// there are.
#[derive(Clone, Debug, Default, PartialEq, Eq)]
pub struct Receivers {
    pub accounts: Vec<(u32, u32)>,
    pub more: usize,
}

impl Order {
    /// Like units of an account follow.
    pub fn units_of(&mut self, account: u32, count: u32, lots: u32) {
        self.0.push(Block { count, accounts: vec![account], lots });
    }

    /// Full units that are dealt in turn follow.
    pub fn dealt(&mut self, rounds: &Rounds) {
        let (count, accounts) = (rounds.last + 1 - rounds.first, rounds.accounts.clone());
        self.0.push(Block { count, accounts, lots: FULL });
    }

    /// The units, one after another.
    fn units(&self) -> impl Iterator<Item = Unit> + '_ {
        self.0.iter().flat_map(|Block { count, accounts, lots }| {
            let whose = accounts.iter().cycle().take(*count as usize);
            whose.map(move |account| Unit { account: *account, lots: *lots })
        })
    }

    /// Where this order parts from another; nowhere where they are the same.
    pub fn parting(&self, other: &Order) -> Option<Parting> {
        if self == other {
            return None;
        }
        let (mut one, mut two) = (self.units(), other.units());
        for unit in 0.. {
            match [one.next(), two.next()] {
                [None, None] => break,
                units if units[0] != units[1] => {
                    let receivers = [self, other].map(|order| order.receivers(unit));
                    return Some(Parting { unit, units, receivers });
                }
                _ => {}
            }
        }
        None
    }

    /// Whose the units from this one on are.
    fn receivers(&self, unit: u32) -> Receivers {
        let mut found = Receivers::default();
        for Unit { account, .. } in self.units().skip(unit as usize) {
            let full = found.accounts.len() == MOST_ACCOUNTS;
            match found.accounts.last_mut() {
                Some((last, count)) if *last == account && found.more == 0 => *count += 1,
                _ if full => found.more += 1,
                _ => found.accounts.push((account, 1)),
            }
        }
        found
    }
}

#[cfg(test)]
mod tests {
    use super::*;

    fn order(units: &[(u32, u32, u32)]) -> Order {
        let mut order = Order::default();
        units.iter().for_each(|&(account, count, lots)| order.units_of(account, count, lots));
        order
    }

    #[test]
    fn orders_part_at_the_first_unit_that_differs() {
        let one = order(&[(2, 2, FULL), (1, 2, FULL), (2, 1, 50_000)]);
        let two = order(&[(2, 3, FULL), (1, 1, FULL), (2, 1, 50_000)]);
        let unit = |account| Some(Unit { account, lots: FULL });
        let found = one.parting(&two).unwrap();
        assert_eq!((found.unit, found.units), (2, [unit(1), unit(2)]));
        assert_eq!(found.receivers[0].accounts, [(1, 2), (2, 1)]);
        assert_eq!(found.receivers[1].accounts, [(2, 1), (1, 1), (2, 1)]);
        let longer = order(&[(2, 2, FULL), (1, 2, FULL), (2, 1, 50_000), (9, 1, 7)]);
        let found = one.parting(&longer).unwrap();
        assert_eq!((found.unit, found.units[0]), (5, None));
        assert_eq!(found.receivers.map(|receivers| receivers.accounts), [vec![], vec![(9, 1)]]);
        let split = order(&[(2, 1, FULL), (2, 1, FULL), (1, 2, FULL), (2, 1, 50_000)]);
        assert_eq!((one.parting(&one), one.parting(&split)), (None, None));
    }

    #[test]
    fn units_dealt_in_turn_go_from_account_to_account() {
        let mut dealt = Order::default();
        let accounts = vec![2, 1, 3];
        dealt.dealt(&Rounds { first: 0, last: 29, round: 1, until: 10, accounts });
        let found = order(&[(2, 30, FULL)]).parting(&dealt).unwrap();
        assert_eq!((found.unit, found.units[1].map(|unit| unit.account)), (1, Some(1)));
        assert_eq!(found.receivers[0], Receivers { accounts: vec![(2, 29)], more: 0 });
        assert_eq!(found.receivers[1].accounts[..3], [(1, 1), (3, 1), (2, 1)]);
        assert_eq!((found.receivers[1].accounts.len(), found.receivers[1].more), (12, 17));
    }
}
