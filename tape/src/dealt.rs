//! The units of an issue on a day on which full units are dealt in turn: rounds, and who takes part.

use crate::units::{unit_of, Run, FULL};
use settlement_day::calls::{self, Unit};
use settlement_day::Book;

/// Where a full unit stands: its round and its receiver, both from 1, and how many take part in the
/// round. Like units one after another are of the rounds up to `until`.
#[derive(Clone, Copy, Debug, PartialEq, Eq)]
pub struct Turn {
    pub round: u32,
    pub until: u32,
    pub receiver: u32,
    pub of: u32,
}

impl Turn {
    /// In words.
    pub fn words(&self) -> String {
        let Turn { round, until, receiver, of } = *self;
        if round == until {
            return format!("round {round}, receiver {receiver} of {of}");
        }
        format!("rounds {round} to {until}, receiver {receiver} of {of}")
    }
}

/// Rounds one after another in which the same receivers take part, and the units that they are.
#[derive(Clone, Debug, PartialEq, Eq)]
pub struct Rounds {
    pub first: u32,
    pub last: u32,
    pub round: u32,
    pub until: u32,
    pub accounts: Vec<u32>,
}

/// An issue's receivers, in the order in which each round goes, and the small units behind all rounds.
#[derive(Clone, Debug, Default, PartialEq, Eq)]
pub struct Dealt {
    /// The full units of each receiver as a run; `first` is the unit of the first round.
    receivers: Vec<Run>,
    rounds: Vec<Rounds>,
    small: Vec<Run>,
}

impl Dealt {
    /// The units of an issue. The library is asked for the units of the first round, which names the
    /// receivers, and for the small ones; an account's full units are net / 100,000.
    pub fn of(book: &Book, issue: u32) -> Dealt {
        let asked = |first: u32, count: fn(u32) -> u32| {
            let unit = calls::unit(book, issue, first).ok()??;
            let due = book.net(issue, unit.account).max(0).unsigned_abs();
            let (account, lots) = (unit.account, unit.lots);
            Some(Run { first, count: count(due), account, lots, due })
        };
        let mut receivers: Vec<Run> = Vec::new();
        while let Some(run) = asked(receivers.len() as u32, |due| due / FULL) {
            let again = receivers.iter().any(|other| other.account == run.account);
            if !run.full() || again {
                break;
            }
            receivers.push(run);
        }
        let full: u32 = receivers.iter().map(|run| run.count).sum();
        let small = (full..).map_while(|first| asked(first, |_| 1)).collect();
        Dealt { rounds: rounds_of(&receivers), receivers, small }
    }

    /// How many full units there are.
    pub fn full(&self) -> u32 {
        self.rounds.last().map_or(0, |rounds| rounds.last + 1)
    }

    /// The receivers as runs, and behind them the small units.
    pub fn ranked(&self) -> Vec<Run> {
        [&self.receivers[..], &self.small].concat()
    }

    /// The small units.
    pub fn small(&self) -> &[Run] {
        &self.small
    }

    /// The rounds, those with the same receivers together.
    pub fn rounds(&self) -> &[Rounds] {
        &self.rounds
    }

    /// A unit, if there is one of this number.
    pub fn unit(&self, unit: u32) -> Option<Unit> {
        match self.turn_of(unit) {
            Some((account, _)) => Some(Unit { account, lots: FULL }),
            None => unit_of(&self.small, unit),
        }
    }

    /// The account of a full unit, and where it stands; none where it is small or there is none.
    pub fn turn_of(&self, unit: u32) -> Option<(u32, Turn)> {
        let rounds = self.rounds.get(self.rounds.partition_point(|one| one.last < unit))?;
        let (of, inside) = (rounds.accounts.len() as u32, unit - rounds.first);
        let (round, at) = (rounds.round + inside / of, inside % of);
        let turn = Turn { round, until: round, receiver: at + 1, of };
        Some((rounds.accounts[at as usize], turn))
    }

    /// The units from this one on as they fail: an account's full units together, at the place of the
    /// first of them; then the small ones.
    pub fn waiting(&self, from: u32) -> Vec<Run> {
        let mut order: Vec<(u32, Vec<Run>)> = Vec::new();
        for rounds in &self.rounds {
            let of = rounds.accounts.len() as u32;
            for unit in rounds.first.max(from)..=rounds.last {
                let account = rounds.accounts[((unit - rounds.first) % of) as usize];
                let run = Run { first: unit, count: 1, account, lots: FULL, due: 0 };
                match order.iter_mut().find(|(other, _)| *other == account) {
                    Some((_, runs)) => runs.push(run),
                    None => order.push((account, vec![run])),
                }
            }
        }
        let full = order.into_iter().flat_map(|(_, runs)| runs);
        full.chain(self.small.iter().copied().filter(|run| run.first >= from)).collect()
    }
}

/// The rounds of receivers; those with fewer units drop out of the later ones.
fn rounds_of(receivers: &[Run]) -> Vec<Rounds> {
    let mut all = Vec::new();
    let (mut first, mut round) = (0, 1);
    let mut wide = receivers.len();
    while wide > 0 {
        let until = receivers[wide - 1].count;
        let last = first + wide as u32 * (until + 1 - round) - 1;
        let accounts = receivers[..wide].iter().map(|run| run.account).collect();
        all.push(Rounds { first, last, round, until, accounts });
        (first, round) = (last + 1, until + 1);
        wide = receivers[..wide].partition_point(|run| run.count > until);
    }
    all
}

#[cfg(test)]
mod tests {
    use super::*;
    use crate::units::Walk;
    use settlement_day::place;

    /// A book of day 1 on which full units are dealt in turn.
    fn book(nets: &[(u32, i32)]) -> Book {
        let mut book = Book { day: 1, turn: 1, ..Book::fresh() };
        for &(account, net) in nets {
            book.nets[place(0, account).unwrap()] = net;
            book.nets[place(0, 63).unwrap()] -= net;
        }
        book
    }

    fn p5() -> Dealt {
        Dealt::of(&book(&[(1, 230_000), (2, 250_000), (3, 150_000)]), 0)
    }

    #[test]
    fn the_rounds_of_p5() {
        let rounds = |first, last, round, accounts: &[u32]| {
            let accounts = accounts.to_vec();
            Rounds { first, last, round, until: round, accounts }
        };
        assert_eq!(p5().rounds(), [rounds(0, 2, 1, &[2, 1, 3]), rounds(3, 4, 2, &[2, 1])]);
        let small: Vec<[u32; 3]> =
            p5().small().iter().map(|run| [run.first, run.account, run.lots]).collect();
        assert_eq!(small, [[5, 2, 50_000], [6, 3, 50_000], [7, 1, 30_000]]);
        let turn = |k| p5().turn_of(k).map(|(account, turn)| (account, turn.words()));
        assert_eq!(turn(3), Some((2, "round 2, receiver 1 of 2".to_string())));
        assert_eq!(turn(2), Some((3, "round 1, receiver 3 of 3".to_string())));
        assert_eq!(turn(5), None);
    }

    #[test]
    fn every_unit_is_the_library_s() {
        let nets = [(0, 1_000_000), (5, 1), (9, 100_000), (10, 300_001), (11, 1_050_000)];
        let book = book(&nets);
        let dealt = Dealt::of(&book, 0);
        let total = dealt.full() + dealt.small().len() as u32;
        for k in 0..total {
            let asked = calls::unit(&book, 0, k).unwrap().unwrap();
            let here = dealt.turn_of(k).map_or_else(
                || {
                    let run = dealt.small()[(k - dealt.full()) as usize];
                    (run.account, run.lots)
                },
                |(account, _)| (account, FULL),
            );
            assert_eq!((asked.account, asked.lots), here, "unit {k}");
        }
        assert_eq!(calls::unit(&book, 0, total), Ok(None));
        assert_eq!(dealt.rounds().len(), 3);
        assert_eq!(Dealt::of(&book, 1), Dealt::default());
    }

    #[test]
    fn what_waits_is_gathered() {
        let waiting: Vec<u32> = p5().waiting(1).iter().map(|run| run.first).collect();
        assert_eq!(waiting, [1, 4, 2, 3, 5, 6, 7]);
        let mut walk = Walk::along(p5().waiting(1));
        assert_eq!(walk.take(50_000), (1, 1, 1));
        assert_eq!(walk.take(150_000), (1, 4, 2));
        assert_eq!(walk.take(80_000), (2, 2, 1));
    }
}
