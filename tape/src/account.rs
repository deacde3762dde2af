//! All units of an account in an issue, in a sentence each, and what it is still owed: what a receiver is
//! told who does not know its units by number. After a roll too, of the day that was.

use crate::dealt::Dealt;
use crate::input::Day;
use crate::json;
use crate::measure::{counted, Face};
use crate::standing::{run, Stood, When};
use crate::status::{phrase, tell_unit, Asked, FACT, NOT_SETTLED};
use crate::telling::failed_units;
use crate::units::{runs, FULL};
use settlement_day::calls::{self, Unit};
use settlement_day::{Book, Entry, Phase, Refusal, Status};

/// Whose units are asked of, in which issue, and when.
#[derive(Clone, Copy, Debug, PartialEq, Eq)]
pub struct Question {
    pub issue: u32,
    pub account: u32,
    pub when: When,
}

/// What is told: the units with their status, and the entries of the ledger to the account.
pub struct Told {
    question: Question,
    stood: Stood,
    units: Vec<Asked>,
    owed: Vec<Entry>,
}

/// Runs a tape on a fresh book and asks of each unit of the account; an error is that there is no such
/// moment.
pub fn ask(day: &Day, question: Question) -> Result<Told, String> {
    let Question { issue, account, when } = question;
    let stood = run(day, when)?;
    let book = &stood.book;
    let settling = book.phase != Phase::TAKING;
    let numbers = if settling { units_of(book, issue, account) } else { Vec::new() };
    let dealt = book.deals_in_turn().then(|| Dealt::of(book, issue));
    let asked = |&(unit, lots): &(u32, u32)| {
        let status = calls::status(book, issue, unit).ok()?;
        let turn = dealt.as_ref().and_then(|dealt| dealt.turn_of(unit)).map(|(_, turn)| turn);
        Some(Asked { issue, number: unit, unit: Unit { account, lots }, turn, status })
    };
    let units = numbers.iter().filter_map(asked).collect();
    let is_owed = |entry: &Entry| (u32::from(entry.issue), u32::from(entry.to)) == (issue, account);
    let owed = book.ledger().filter(is_owed).collect();
    Ok(Told { question, stood, units, owed })
}

/// The numbers and lots of an account's units.
fn units_of(book: &Book, issue: u32, account: u32) -> Vec<(u32, u32)> {
    if !book.deals_in_turn() {
        let of_account = runs(book, issue).into_iter().filter(|run| run.account == account);
        return of_account
            .flat_map(|run| (run.first..=run.last()).map(move |k| (k, run.lots)))
            .collect();
    }
    let dealt = Dealt::of(book, issue);
    let is_its = |k: &u32| dealt.turn_of(*k).is_some_and(|(other, _)| other == account);
    let full = (0..dealt.full()).filter(is_its).map(|k| (k, FULL));
    let small = dealt.small().iter().filter(|run| run.account == account);
    full.chain(small.map(|run| (run.first, run.lots))).collect()
}

impl Told {
    /// Was nothing settled yet, so that the book has no units to tell of?
    pub fn refused(&self) -> bool {
        self.stood.book.phase == Phase::TAKING
    }

    /// A sentence for each unit, like ones together, and one for each entry that is owed.
    pub fn sentences(&self) -> String {
        let known = &self.stood.known;
        let issue = known.issue(self.question.issue);
        let account = known.account(self.question.account);
        let (moment, day) = (self.stood.moment(), known.day(self.stood.book.day));
        let head = format!("{moment}, day {day}, {}", self.stood.phase());
        if self.refused() {
            return format!("{head}: refused by {}: {NOT_SETTLED}\n", Refusal::Phase.number());
        }
        let due: u64 = self.units.iter().map(|one| u64::from(one.unit.lots)).sum();
        let (due, units) = (Face(due), counted(self.units.len(), "unit"));
        let mut told = match self.units.len() {
            0 => format!("{head}: account {account} is due nothing of issue {issue}\n"),
            _ => format!("{head}: account {account} is due {due} of issue {issue} in {units}\n"),
        };
        for like in self.units.chunk_by(alike) {
            told.push_str(&format!("  {}\n", sentence(like)));
        }
        for entry in &self.owed {
            let Entry { from, lots, day, .. } = *entry;
            let (from, lots, day) = (known.account(from), Face(lots.into()), known.day(day));
            told.push_str(&format!(
                "  account {from} owes it {lots} of the issue since day {day}\n"
            ));
        }
        told
    }

    /// The same as objects of JSON, a line each.
    pub fn json(&self) -> String {
        let at = self.stood.at();
        let known = &self.stood.known;
        let Question { issue, account, .. } = self.question;
        if self.refused() {
            return json::fact_by(known, FACT, |object| {
                at.tell(object);
                object.issue(issue).account("account", account);
                object.field("refusal", Refusal::Phase.number()).field("why", NOT_SETTLED);
            });
        }
        let units = self.units.iter().map(|one| {
            json::fact_by(known, FACT, |object| {
                at.tell(object);
                tell_unit(object, one);
            })
        });
        let owed = self.owed.iter().map(|entry| {
            let Entry { from, to, lots, day: since, .. } = *entry;
            json::fact_by(known, "entry", |object| {
                at.tell(object);
                object.issue(issue).account("from", from).account("to", to);
                object.field("lots", lots).field("since", since);
            })
        });
        units.chain(owed).collect()
    }
}

/// Are two units told in one sentence? Both are handed, or both wholly failed, and of the same lots.
fn alike(one: &Asked, next: &Asked) -> bool {
    let whole = matches!(one.status, Status::Handed | Status::WhollyFailed);
    whole && one.status == next.status && one.unit == next.unit
}

/// The sentence of like units.
fn sentence(like: &[Asked]) -> String {
    let (first, last) = (&like[0], &like[like.len() - 1]);
    let named = failed_units(first.number, last.number, like.len() as u32);
    let each = if like.len() == 1 { "" } else { " each" };
    let turn = first.turn.filter(|_| like.len() == 1);
    let turn = turn.map_or(String::new(), |turn| format!(" ({})", turn.words()));
    let lots = Face(first.unit.lots.into());
    format!("{named}{turn}, {lots}{each}, {}", phrase(&first.status, like.len() > 1))
}

#[cfg(test)]
mod tests {
    use super::*;
    use crate::input::Taken;

    /// Two days; the second with full units dealt in turn, and still settling.
    const DAYS: &str = "turn 1\ntrade 0 9 1 350000\ntrade 0 9 2 120000\nclose\ndeliver 0 9 220000\ncutoff\n\
        resolve 0 9 100000\nroll 1 300 100000 accrued 0\ntrade 0 9 1 250000\ntrade 0 9 2 230000\nclose\n\
        deliver 0 9 140000\n";

    fn told(text: &str, account: u32, when: When) -> String {
        let day = Day::of("day.txt", text.as_bytes().to_vec(), Taken::Apart).unwrap();
        let told = ask(&day, Question { issue: 0, account, when });
        told.map_or_else(|error| error, |told| told.sentences())
    }

    #[test]
    fn all_units_of_an_account_in_a_sentence_each() {
        let expected = "before word 11, line 8, day 0, Cut: account 1 is due 350,000 lots (17,500,000,000 yen \
            face) of issue 0 in 4 units\n  \
            units 0 to 1, 100,000 lots (5,000,000,000 yen face) each, are handed\n  \
            unit 2, 100,000 lots (5,000,000,000 yen face), partly failed: at the cutoff it lacked 80,000 lots \
            (4,000,000,000 yen face)\n  \
            unit 4, 50,000 lots (2,500,000,000 yen face), wholly failed: at the cutoff nothing of it had come\n  \
            account 9 owes it 50,000 lots (2,500,000,000 yen face) of the issue since day 0\n";
        assert_eq!(told(DAYS, 1, When::EndOf(0)), expected);
        let settling = told(DAYS, 1, When::LastClosed);
        for part in [
            "at the end of the tape, day 1, Settling: account 1 is due 250,000 lots",
            "\n  unit 0 (round 1, receiver 1 of 2), 100,000 lots (5,000,000,000 yen face), is handed\n",
            "\n  unit 2 (round 2, receiver 1 of 2), 100,000 lots (5,000,000,000 yen face), waits: with 160,000 lots more",
        ] {
            assert!(settling.contains(part), "{part}\n{settling}");
        }
        let nothing =
            "at the end of the tape, day 1, Settling: account 7 is due nothing of issue 0\n";
        assert_eq!(told(DAYS, 7, When::LastClosed), nothing);
    }

    #[test]
    fn after_a_roll_it_is_the_day_that_was() {
        let rolled = DAYS.split("trade 0 9 1 250000").next().unwrap();
        assert_eq!(told(rolled, 1, When::LastClosed), told(DAYS, 1, When::EndOf(0)));
        assert_eq!(told(DAYS, 1, When::EndOf(2)), "--day 2: the tape ends on day 1");
        let taking = told("trade 0 1 2 3\n", 2, When::LastClosed);
        assert!(taking.contains("day 0, Taking: refused by 3: trades are taken"), "{taking}");
        let before = told(DAYS, 1, When::Before(6));
        assert!(
            before.starts_with("before word 6, line 5, day 0, Settling: account 1"),
            "{before}"
        );
        assert!(
            before.contains("unit 2, 100,000 lots (5,000,000,000 yen face), waits"),
            "{before}"
        );
    }

    #[test]
    fn the_same_as_json() {
        let day = Day::of("day.txt", DAYS.as_bytes().to_vec(), Taken::Apart).unwrap();
        let json =
            ask(&day, Question { issue: 0, account: 1, when: When::EndOf(0) }).unwrap().json();
        let lines: Vec<&str> = json.lines().collect();
        let first = "{\"schema\":1,\"fact\":\"status\",\"day\":0,\"phase\":\"Cut\",\"word\":11,\"line\":8,\
            \"issue\":0,\"unit\":0,\"refusal\":0,\"account\":1,\"lots\":100000,\"status\":\"handed\"}";
        assert_eq!((lines.len(), lines[0]), (5, first));
        assert!(lines[4].ends_with("\"issue\":0,\"from\":9,\"to\":1,\"lots\":50000,\"since\":0}"));
    }
}
