//! What a page shows, day by day and issue by issue: units and what became of them, deliveries, fails and
//! what became of those, refused instructions.

use crate::dealt::Rounds;
use crate::facts::{Fact, Terms};
use crate::units::FULL;
use std::collections::BTreeMap;

/// The refused instructions of a day that are shown; how many more there are is said.
pub const REFUSED_SHOWN: usize = 50;

/// A day of the page.
#[derive(Default)]
pub struct DayPart {
    /// The change-over day as it is named when the day begins; 0 where none is.
    pub turn: u32,
    pub trades: usize,
    /// Marks and change-over days that were put, a sentence each.
    pub settings: Vec<String>,
    /// Where close and cutoff stand, if they were done.
    pub closed: Option<String>,
    pub cut: Option<String>,
    pub issues: BTreeMap<u32, IssuePart>,
    pub roll: Option<Roll>,
    /// The first refused instructions, a sentence each, and how many there are.
    pub refused: Vec<String>,
    pub refusals: usize,
}

/// The roll that ends a day.
pub struct Roll {
    pub when: String,
    pub days: u32,
    pub rate: u32,
    pub charges: Vec<Charge>,
}

/// A charge on an entry: on which terms, from whom to whom, on how many lots of which value.
pub struct Charge {
    pub terms: Terms,
    pub from: u32,
    pub to: u32,
    pub lots: u32,
    pub value: u64,
    pub yen: u64,
}

/// An issue on a day.
#[derive(Default)]
pub struct IssuePart {
    /// The units that are shown, in their order.
    pub blocks: Vec<Block>,
    /// The lots of all units of the issue, shown or not.
    pub lots: u64,
    /// How many units are handed whole.
    pub handed: u32,
    /// The unit that was handed in part at the cutoff, the lots that it got and those that it lacks.
    pub partly: Option<(u32, u32, u32)>,
    pub cut: bool,
    /// Which case of the rule decided where neighbours are close, a sentence each.
    pub neighbours: Vec<String>,
    /// What each deliverer owed at the close.
    pub owes: Vec<(u32, u64)>,
    pub deliveries: Vec<Delivery>,
    /// The fails of the cutoff, by their place among all fails.
    pub fails: Vec<usize>,
    pub later: Vec<Later>,
}

/// Like units: every `step`-th one from the first to the last, of one account, or dealt in turn to
/// several.
#[derive(Clone, Debug, PartialEq, Eq)]
pub struct Block {
    pub first: u32,
    pub last: u32,
    pub step: u32,
    pub accounts: Vec<u32>,
    pub lots: u32,
    /// The lots of the units before the first.
    pub before: u64,
    /// The rounds in which they are dealt, and of one account which receiver it is of how many.
    pub rounds: Option<(u32, u32)>,
    pub receiver: Option<(u32, u32)>,
}

/// What became of units.
#[derive(Clone, Copy, Debug, PartialEq, Eq)]
pub enum State {
    Handed,
    Partly,
    Failed,
    Open,
}

impl State {
    /// All states, in the order in which a bar has them.
    pub const ALL: [State; 4] = [State::Handed, State::Partly, State::Failed, State::Open];

    /// The word for it.
    pub fn word(self) -> &'static str {
        match self {
            State::Handed => "handed",
            State::Partly => "partly failed",
            State::Failed => "failed",
            State::Open => "open",
        }
    }

    /// Its class in the style.
    pub fn class(self) -> &'static str {
        match self {
            State::Partly => "partly",
            other => other.word(),
        }
    }

    /// What it means.
    pub fn meaning(self) -> &'static str {
        match self {
            State::Handed => "passed on to the account, whole",
            State::Partly => "at the cutoff the remaining stock went to it, and it lacked the rest",
            State::Failed => "nothing of it had come at the cutoff",
            State::Open => "not handed yet, and the cutoff has not come",
        }
    }
}

/// Units of a block that are in one state; of one that is partly failed, the lots that were handed.
#[derive(Clone, Debug, PartialEq, Eq)]
pub struct Piece {
    pub state: State,
    pub block: Block,
    pub handed: u64,
}

/// A delivery, or the cutoff's remaining stock, and what it handed.
pub struct Delivery {
    pub when: String,
    /// The deliverer and its lots; none at the cutoff.
    pub by: Option<(u32, u32)>,
    pub handed: Vec<Handed>,
    /// Stock that waits, for which unit of whom.
    pub waits: Option<(u64, u32, u32)>,
    pub still_owes: Option<u64>,
    /// Is it wanted, or something that it did?
    pub shown: bool,
}

/// Units that a delivery handed: like ones of one account, or full ones dealt in turn, with how many each
/// account got. Of a unit that is handed in part, the lots are those that came.
pub struct Handed {
    pub first: u32,
    pub last: u32,
    pub lots: u32,
    /// The accounts and the units of each.
    pub to: Vec<(u32, u32)>,
    pub rounds: Option<(u32, u32)>,
    pub part: bool,
}

impl Handed {
    /// Joins units that were handed next, if both are dealt in turn; answers whether it did.
    pub fn joins(&mut self, next: &Handed) -> bool {
        let (Some(rounds), Some(behind)) = (self.rounds, next.rounds) else { return false };
        (self.last, self.rounds) = (next.last, Some((rounds.0, behind.1)));
        for &(account, units) in &next.to {
            match self.to.iter_mut().find(|(other, _)| *other == account) {
                Some((_, count)) => *count += units,
                None => self.to.push((account, units)),
            }
        }
        true
    }
}

/// A resolve or a pair-off: what it says, and what came of it, a sentence each.
pub struct Later {
    pub when: String,
    pub what: String,
    pub came: Vec<String>,
    /// Is it wanted, or something that came of it?
    pub shown: bool,
}

/// A fail as it arose, and what became of it.
pub struct Fail {
    pub day: u16,
    pub issue: u32,
    pub from: u32,
    pub to: u32,
    pub lots: u32,
    /// Of which units it is, or from which pair-off.
    pub of: String,
    pub left: u32,
    /// Sentences, where it is shown.
    pub became: Option<Vec<String>>,
}

impl Block {
    /// Like units of an account, which stand behind so many lots.
    pub fn of_units(fact: &Fact, before: u64) -> Option<Block> {
        let Fact::Units { first, last, account, lots, .. } = *fact else { return None };
        let accounts = vec![account];
        Some(Block { first, last, step: 1, accounts, lots, before, rounds: None, receiver: None })
    }

    /// The units of rounds: all of them, or those of one account.
    pub fn of_rounds(rounds: &Rounds, only: Option<u32>) -> Option<Block> {
        let (of, lots) = (rounds.accounts.len() as u32, FULL);
        let whole = Block {
            first: rounds.first,
            last: rounds.last,
            step: 1,
            accounts: rounds.accounts.clone(),
            lots,
            before: u64::from(rounds.first) * u64::from(FULL),
            rounds: Some((rounds.round, rounds.until)),
            receiver: None,
        };
        let Some(account) = only else { return Some(whole) };
        let seat = rounds.accounts.iter().position(|one| *one == account)? as u32;
        Some(Block {
            first: rounds.first + seat,
            last: rounds.last + 1 + seat - of,
            step: of,
            accounts: vec![account],
            before: whole.before + u64::from(seat) * u64::from(FULL),
            receiver: Some((seat + 1, of)),
            ..whole
        })
    }

    /// How many units they are.
    pub fn count(&self) -> u32 {
        (self.last - self.first) / self.step + 1
    }

    /// The lots of all of them.
    pub fn all(&self) -> u64 {
        u64::from(self.count()) * u64::from(self.lots)
    }

    /// Those of them from a unit up to before another; none where there are none.
    fn between(&self, from: u32, end: u32) -> Option<Block> {
        let skipped = from.saturating_sub(self.first).div_ceil(self.step);
        let first = self.first + skipped * self.step;
        let last = self.last.min(end.checked_sub(1)?);
        if first > last {
            return None;
        }
        let last = first + (last - first) / self.step * self.step;
        let before = self.before + u64::from(first - self.first) * u64::from(self.lots);
        let rounds = self.rounds.map(|(round, _)| self.rounds_of(round, first, last));
        Some(Block { first, last, before, rounds, accounts: self.accounts.clone(), ..*self })
    }

    /// Units dealt in turn to several, parted so that each part is of whole rounds or of some accounts of
    /// one round; `whole` is the block that they are of, which begins with a round.
    fn by_rounds(&self, whole: &Block) -> Vec<Block> {
        let of = whole.accounts.len() as u32;
        if self.receiver.is_some() || of < 2 {
            return vec![self.clone()];
        }
        let inside = (self.first - whole.first) % of;
        let next = self.first + (of - inside) % of;
        let end = self.last + 1;
        let tail = end - (end - whole.first) % of;
        let cuts = [self.first, next.min(end), tail.max(next.min(end)), end];
        let parts = cuts.windows(2).filter_map(|cut| self.between(cut[0], cut[1]));
        parts.map(|part| part.of_seats(whole)).collect()
    }

    /// The same units with the accounts that they are of, where they are fewer than a round.
    fn of_seats(self, whole: &Block) -> Block {
        let (of, count) = (whole.accounts.len(), self.count() as usize);
        let seat = (self.first - whole.first) as usize % of;
        let rounds = whole.rounds.map(|(round, _)| whole.rounds_of(round, self.first, self.last));
        let accounts = match count < of {
            true => whole.accounts[seat..(seat + count).min(of)].to_vec(),
            false => self.accounts,
        };
        Block { accounts, rounds, ..self }
    }

    /// The rounds of the units from one to another, where the block begins with a round.
    fn rounds_of(&self, round: u32, first: u32, last: u32) -> (u32, u32) {
        let of = self.receiver.map_or(self.accounts.len() as u32, |(_, of)| of);
        let at = |unit: u32| round + (unit - self.first) / of;
        (at(first), at(last))
    }
}

impl IssuePart {
    /// A block by the states of its units: handed ones, the one that was handed in part, the others.
    pub fn pieces(&self, block: &Block) -> Vec<Piece> {
        let mut pieces = Vec::new();
        let mut put = |state, units: Option<Block>, part: u64| {
            let parts = units.map_or(Vec::new(), |units| units.by_rounds(block));
            pieces.extend(parts.into_iter().map(|block| {
                let handed = if state == State::Handed { block.all() } else { part };
                Piece { state, block, handed }
            }));
        };
        put(State::Handed, block.between(0, self.handed), 0);
        let mut rest = self.handed;
        if let Some((unit, lots, _)) = self.partly {
            put(State::Partly, block.between(unit, unit + 1), lots.into());
            rest = unit + 1;
        }
        let state = if self.cut { State::Failed } else { State::Open };
        put(state, block.between(rest, u32::MAX), 0);
        pieces
    }

    /// All pieces of what is shown.
    pub fn all_pieces(&self) -> Vec<Piece> {
        self.blocks.iter().flat_map(|block| self.pieces(block)).collect()
    }
}

impl Piece {
    /// The lots of its units that failed.
    pub fn failed(&self) -> u64 {
        match self.state {
            State::Partly | State::Failed => self.block.all() - self.handed,
            State::Handed | State::Open => 0,
        }
    }
}

#[cfg(test)]
mod tests {
    use super::*;

    fn rounds() -> Rounds {
        Rounds { first: 3, last: 12, round: 2, until: 6, accounts: vec![8, 5] }
    }

    #[test]
    fn rounds_are_one_block_and_an_account_s_are_every_so_manyth_unit() {
        let all = Block::of_rounds(&rounds(), None).unwrap();
        assert_eq!((all.count(), all.all(), all.before), (10, 1_000_000, 300_000));
        let five = Block::of_rounds(&rounds(), Some(5)).unwrap();
        assert_eq!((five.first, five.last, five.step, five.count()), (4, 12, 2, 5));
        assert_eq!((five.rounds, five.receiver), (Some((2, 6)), Some((2, 2))));
        assert_eq!(Block::of_rounds(&rounds(), Some(1)), None);
    }

    #[test]
    fn a_block_is_parted_by_what_became_of_its_units() {
        let mut part = IssuePart { handed: 6, cut: true, ..IssuePart::default() };
        part.partly = Some((6, 40_000, 60_000));
        let told = |only| -> Vec<(State, u32, u32, u32, (u32, u32))> {
            let block = Block::of_rounds(&rounds(), only).unwrap();
            let pieces = part.pieces(&block);
            let one = |piece: &Piece| {
                let Piece { state, block, .. } = piece;
                (*state, block.first, block.last, block.count(), block.rounds.unwrap())
            };
            pieces.iter().map(one).collect()
        };
        let handed = [(State::Handed, 3, 4, 2, (2, 2)), (State::Handed, 5, 5, 1, (3, 3))];
        let partly = (State::Partly, 6, 6, 1, (3, 3));
        assert_eq!(told(None)[..2], handed);
        assert_eq!(told(None)[2..], [partly, (State::Failed, 7, 12, 6, (4, 6))]);
        let block = Block::of_rounds(&rounds(), None).unwrap();
        let accounts: Vec<Vec<u32>> =
            part.pieces(&block).into_iter().map(|piece| piece.block.accounts).collect();
        assert_eq!(accounts, [vec![8, 5], vec![8], vec![5], vec![8, 5]]);
        let five = [(State::Handed, 4, 4, 1, (2, 2)), (State::Partly, 6, 6, 1, (3, 3))];
        assert_eq!(told(Some(5))[..2], five);
        assert_eq!(told(Some(5))[2], (State::Failed, 8, 12, 3, (4, 6)));
        assert_eq!(told(Some(8))[1], (State::Failed, 7, 11, 3, (4, 6)));
    }
}
