//! Simulated desks for test programs: a book's nets with settlement accounts, inventories and a unit
//! size, as words that can be replayed, and markets that take many rounds.

use crate::options::number;
use reference::book::{place, Book, ACCOUNTS, ISSUES};
use reference::simulation::{Plan, SETTLEMENT_ACCOUNTS};
use std::fmt;

/// A book and what is tried on it.
#[derive(Clone, Debug, PartialEq, Eq)]
pub struct Trial {
    pub book: Book,
    pub plan: Plan,
}

impl Trial {
    /// A fresh book, all accounts in settlement account 0, nothing in it.
    pub fn of_size(size: u32) -> Trial {
        let inventories = vec![0; ISSUES * SETTLEMENT_ACCOUNTS];
        let plan = Plan { settlement: vec![0; ACCOUNTS], inventories, size };
        Trial { book: Book::fresh(), plan }
    }

    /// On this day, the first on which full units of a book are dealt in turn.
    pub fn turn(&mut self, day: u16) {
        (self.book.day, self.book.turn) = (day, day.into());
    }

    /// What a settlement account holds of an issue.
    pub fn hold(&mut self, issue: usize, settlement: usize, lots: u32) {
        self.plan.inventories[issue * SETTLEMENT_ACCOUNTS + settlement] = lots;
    }

    /// The market in which the most rounds were found, in one issue: sixteen settlement accounts, each
    /// with a deliverer and a receiver of about `most` lots, and one unit that goes round.
    pub fn round_and_round(&mut self, issue: usize, most: u32) {
        let size = self.plan.size;
        let mut left = 0;
        for at in 0..SETTLEMENT_ACCOUNTS {
            let net = (most - (at as u32 + 1) * size) / size * size;
            self.book.nets[place(issue, 32 + at)] = net as i32;
            self.plan.settlement[32 + at] = at as u32;
            left += net;
        }
        for at in 0..SETTLEMENT_ACCOUNTS {
            let account = SETTLEMENT_ACCOUNTS - 1 - at;
            let due = self.book.nets[place(issue, 32 + at)] as u32;
            let owed = (due + if at == 0 { size } else { 0 }).min(most).min(left);
            self.book.nets[place(issue, account)] = -(owed as i32);
            self.plan.settlement[account] = at as u32;
            left -= owed;
        }
        self.book.nets[place(issue, 20)] = -(left as i32);
        self.plan.settlement[20] = SETTLEMENT_ACCOUNTS as u32 - 1;
        self.hold(issue, 0, size);
    }

    /// Reads a case from the words after `--replay`.
    pub fn parse(words: Vec<String>) -> Result<Trial, String> {
        let mut trial = Trial::of_size(1);
        let mut words = words.into_iter();
        while let Some(word) = words.next() {
            let mut next = |what| number::<i64>(what, words.next());
            match word.as_str() {
                "size" => trial.plan.size = next("size")? as u32,
                "turn" => trial.turn(next("a day")? as u16),
                "settle" => {
                    let account = next("an account")? as usize;
                    let settlement = next("a settlement account")? as u32;
                    *trial.plan.settlement.get_mut(account).ok_or("an account above 63")? =
                        settlement;
                }
                "hold" => {
                    let at = next("a place")? as usize;
                    let lots = next("lots")? as u32;
                    *trial.plan.inventories.get_mut(at).ok_or("a place above 255")? = lots;
                }
                "net" => {
                    let at = next("a place")? as usize;
                    let net = next("a net")? as i32;
                    *trial.book.nets.get_mut(at).ok_or("a place above 1023")? = net;
                }
                other => return Err(format!("no case has the word {other:?}")),
            }
        }
        Ok(trial)
    }
}

impl fmt::Display for Trial {
    /// The words that `--replay` takes: the size, the day where full units are dealt in turn, and what
    /// is not 0 of settlement accounts, inventories and nets, each with its place.
    fn fmt(&self, text: &mut fmt::Formatter) -> fmt::Result {
        write!(text, "size {}", self.plan.size)?;
        if self.book.turn != 0 {
            write!(text, " turn {}", self.book.turn)?;
        }
        let mut put = |name: &str, at: usize, number: i64| match number {
            0 => Ok(()),
            _ => write!(text, " {name} {at} {number}"),
        };
        for (at, &settlement) in self.plan.settlement.iter().enumerate() {
            put("settle", at, i64::from(settlement))?;
        }
        for (at, &lots) in self.plan.inventories.iter().enumerate() {
            put("hold", at, i64::from(lots))?;
        }
        for (at, &net) in self.book.nets.iter().enumerate() {
            put("net", at, i64::from(net))?;
        }
        Ok(())
    }
}
