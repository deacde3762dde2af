//! What a pair-off does to the ledger, step by step: which entries meet.

use settlement_day::Entry;

/// A step of an account's pair-off: so many lots that `from` fails the account since a day meet as many
/// that the account fails `to` since a day.
#[derive(Clone, Copy, Debug, PartialEq, Eq)]
pub struct Step {
    pub from: u32,
    pub from_since: u16,
    pub to: u32,
    pub to_since: u16,
    pub lots: u32,
}

impl Step {
    /// Do the lots fall away, since who fails the account is whom it fails?
    pub fn falls_away(&self) -> bool {
        self.from == self.to
    }
}

/// The steps of an account's pair-off on a ledger, which is changed as the pair-off changes it.
pub fn pair_off(ledger: &mut Vec<Entry>, issue: u32, account: u32, today: u16) -> Vec<Step> {
    std::iter::from_fn(|| step(ledger, issue, account, today)).collect()
}

/// One step: the account's first entry in and its first entry out meet; none where one is missing.
fn step(ledger: &mut Vec<Entry>, issue: u32, account: u32, today: u16) -> Option<Step> {
    let of_issue = |entry: &Entry| u32::from(entry.issue) == issue;
    let inward = ledger.iter().position(|one| of_issue(one) && u32::from(one.to) == account)?;
    let outward = ledger.iter().position(|one| of_issue(one) && u32::from(one.from) == account)?;
    let (owed, owes) = (ledger[inward], ledger[outward]);
    let lots = owed.lots.min(owes.lots);
    ledger[inward].lots -= lots;
    ledger[outward].lots -= lots;
    ledger.retain(|entry| entry.lots != 0);
    if owed.from != owes.to {
        ledger.push(Entry { to: owes.to, lots, day: today, ..owed });
    }
    let (from, to) = (owed.from.into(), owes.to.into());
    Some(Step { from, from_since: owed.day, to, to_since: owes.day, lots })
}

#[cfg(test)]
mod tests {
    use super::*;
    use settlement_day::{calls, Book};

    fn entry(from: u8, to: u8, lots: u32, day: u16) -> Entry {
        Entry { issue: 3, from, to, lots, day }
    }

    #[test]
    fn the_steps_of_p10() {
        let other = Entry { issue: 4, ..entry(2, 9, 7, 0) };
        let mut ledger = vec![entry(1, 2, 30, 0), other, entry(2, 3, 20, 1), entry(2, 1, 5, 1)];
        let steps = pair_off(&mut ledger, 3, 2, 1);
        let step = |to, lots| Step { from: 1, from_since: 0, to, to_since: 1, lots };
        assert_eq!(steps, [step(3, 20), step(1, 5)]);
        assert_eq!(steps.iter().map(Step::falls_away).collect::<Vec<_>>(), [false, true]);
        assert_eq!(ledger, [entry(1, 2, 5, 0), other, entry(1, 3, 20, 1)]);
        assert_eq!(pair_off(&mut ledger, 3, 2, 1), []);
    }

    #[test]
    fn the_ledger_after_it_is_the_library_s() {
        let mut numbers = 7_u64;
        let mut next = |limit: u32| {
            numbers =
                numbers.wrapping_mul(0x5851_f42d_4c95_7f2d).wrapping_add(0x1405_7b7e_f767_814f);
            (numbers >> 33) as u32 % limit
        };
        let mut met = 0;
        for _ in 0..300 {
            let mut book = Book { day: 9, ..Book::fresh() };
            book.entries = next(12) as usize;
            for at in 0..book.entries {
                let from = next(4) as u8;
                (book.issues[at], book.froms[at]) = (next(2) as u8, from);
                (book.tos[at], book.lots[at]) = ((from + 1 + next(3) as u8) % 4, 1 + next(6));
                book.days[at] = at as u16 / 2;
            }
            let mut ledger: Vec<Entry> = book.ledger().collect();
            let steps = pair_off(&mut ledger, 1, 2, 9);
            let answer = calls::pair_off(&mut book, 1, 2);
            let cancelled: u64 = steps.iter().map(|step| u64::from(step.lots)).sum();
            assert_eq!(answer, Ok(calls::Done { count: steps.len(), cancelled }));
            assert_eq!(book.ledger().collect::<Vec<_>>(), ledger);
            met += steps.len();
        }
        assert!(met > 100, "{met} steps");
    }
}
