//! What is known of a tape beside its numbers: the names of issues and accounts, and the dates of its
//! days as far as it has been run.

use crate::names::{Called, Date, Names};
use crate::telling::text::listed;
use settlement_day::Instruction;
use std::fmt;

/// Names, and the dates of the days that have begun.
#[derive(Clone, Debug, Default, PartialEq, Eq)]
pub struct Known {
    /// The names of issues and accounts.
    pub names: Names,
    /// The dates of day 0 and of those after it, where day 0 has one.
    dates: Vec<Date>,
}

impl Known {
    /// What is known on day 0.
    pub fn of(names: &Names) -> Known {
        Known { names: names.clone(), dates: names.date().into_iter().collect() }
    }

    /// An instruction was done: after a roll the next day begins, so many calendar days later.
    pub fn done(&mut self, instruction: &Instruction) {
        if let Instruction::Roll { days, .. } = *instruction {
            let next = self.dates.last().map(|last| last.after(days));
            self.dates.extend(next);
        }
    }

    /// An issue as it is told: its name where it has one, otherwise its number.
    pub fn issue(&self, number: impl Into<u32>) -> Called<'_> {
        self.names.issue(number.into())
    }

    /// An account as it is told: its name where it has one, otherwise its number.
    pub fn account(&self, number: impl Into<u32>) -> Called<'_> {
        self.names.account(number.into())
    }

    /// A day as it is told: its number, and its date where it has begun and has one.
    pub fn day(&self, number: impl Into<u32>) -> Dated {
        let number = number.into();
        Dated { number, date: self.dates.get(number as usize).copied() }
    }

    /// Issues as they are told, with commas and a last 'and' between them.
    pub fn issues(&self, numbers: &[u32]) -> String {
        listed(&numbers.iter().map(|number| self.issue(*number)).collect::<Vec<_>>())
    }

    /// Accounts as they are told, with commas and a last 'and' between them.
    pub fn accounts(&self, numbers: &[u32]) -> String {
        listed(&numbers.iter().map(|number| self.account(*number)).collect::<Vec<_>>())
    }

    /// The day of a date; an error says which days there are.
    pub fn day_of(&self, date: Date) -> Result<u16, String> {
        let after = match self.dates.binary_search(&date) {
            Ok(day) => return Ok(day as u16),
            Err(after) => after as u32,
        };
        let last = self.dates.len() as u32;
        let day = |number: u32| format!("day {}", self.day(number));
        let there_is = match after {
            _ if last == 0 => return Err("day 0 has no date: give the day's number".to_string()),
            0 => format!("the first is {}", day(0)),
            after if after == last => format!("the last is {}", day(last - 1)),
            after => format!("it is between {} and {}", day(after - 1), day(after)),
        };
        Err(format!("no day of the tape has the date {date}: {there_is}"))
    }
}

/// A day as it is told: its number, and its date where that is known.
#[derive(Clone, Copy, Debug, PartialEq, Eq)]
pub struct Dated {
    /// Its number.
    pub number: u32,
    /// Its date, if it is known.
    pub date: Option<Date>,
}

impl fmt::Display for Dated {
    fn fmt(&self, text: &mut fmt::Formatter) -> fmt::Result {
        let Dated { number, date } = self;
        match date {
            Some(date) => write!(text, "{number} ({date})"),
            None => write!(text, "{number}"),
        }
    }
}

#[cfg(test)]
mod tests {
    use super::*;

    fn roll(days: u32) -> Instruction {
        Instruction::Roll { days, rate: 300 }
    }

    #[test]
    fn a_day_has_its_date_once_it_has_begun() {
        let names = Names::parse("date 2026-12-30\nissue 3 JGB-350\naccount 5 Nomura\n").unwrap();
        let mut known = Known::of(&names);
        for done in [Instruction::Close, roll(3), Instruction::Cutoff, roll(1)] {
            known.done(&done);
        }
        let days = [0_u32, 1, 2, 3].map(|day| known.day(day).to_string());
        assert_eq!(days, ["0 (2026-12-30)", "1 (2027-01-02)", "2 (2027-01-03)", "3"]);
        assert_eq!(known.issue(3_u8).to_string(), "JGB-350");
        assert_eq!([5_u8, 3].map(|account| known.account(account).to_string()), ["Nomura", "3"]);
        let mut without = Known::default();
        without.done(&roll(3));
        assert_eq!([0_u16, 1].map(|day| without.day(day).to_string()), ["0", "1"]);
    }

    #[test]
    fn a_date_is_a_day_or_says_what_is_near() {
        let mut known = Known::of(&Names::parse("date 2026-12-30\n").unwrap());
        known.done(&roll(3));
        let day_of = |date| known.day_of(Date::parse(date).unwrap());
        assert_eq!([day_of("2026-12-30"), day_of("2027-01-02")], [Ok(0), Ok(1)]);
        for (date, told) in [
            ("2026-12-29", "the first is day 0 (2026-12-30)"),
            ("2027-01-01", "it is between day 0 (2026-12-30) and day 1 (2027-01-02)"),
            ("2027-01-03", "the last is day 1 (2027-01-02)"),
        ] {
            let error = day_of(date).unwrap_err();
            assert_eq!(error, format!("no day of the tape has the date {date}: {told}"));
        }
        let none = Known::default().day_of(Date::parse("2027-01-03").unwrap()).unwrap_err();
        assert_eq!(none, "day 0 has no date: give the day's number");
    }
}
