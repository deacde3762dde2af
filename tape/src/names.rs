//! A names file: names for issues and accounts, and the date of day 0. It has the habits of the text
//! form: a line for each, `#` begins a comment.
//!
//! ```text
//! date 2026-11-17       # the date of day 0
//! issue 0 JGB-350
//! account 5 Nomura
//! ```

use crate::block::{Piece, Text};
use crate::fault::{shown, words_of, Fault, Faults, Word};
use crate::measure::counted;
use crate::text::digits_of;
use settlement_day::{ACCOUNTS, ISSUES};
use std::{fmt, io};

/// The most letters of a name.
pub const MOST_LETTERS: usize = 32;
/// The signs that a name can have beside letters and digits.
const SIGNS: [char; 5] = ['-', '_', '.', '&', '/'];
/// The words of the text form, which are no names.
const WORDS: [&str; 12] = [
    "trade", "close", "deliver", "cutoff", "resolve", "pair-off", "roll", "mark", "turn", "word",
    "byte", "accrued",
];
/// The first whole year of the Gregorian calendar.
const FIRST_YEAR: i64 = 1_583;
/// The last year that day 0 can be in: the last day of a book that begins then has a year of four
/// digits.
const LAST_YEAR: i64 = 7_000;
/// The lines that there are, for errors.
const FORMS: &str = "date YYYY-MM-DD, issue NUMBER NAME, account NUMBER NAME";
/// The most words that a line takes after its first.
const MOST_WORDS: usize = 2;
/// The most names that an error lists.
const MOST_LISTED: usize = 8;

/// What can have a name.
#[derive(Clone, Copy, Debug, PartialEq, Eq)]
pub enum Kind {
    /// An issue.
    Issue,
    /// An account.
    Account,
}

impl Kind {
    /// The word for one of the kind.
    pub fn word(self) -> &'static str {
        match self {
            Kind::Issue => "issue",
            Kind::Account => "account",
        }
    }

    /// How many there are of the kind.
    pub fn count(self) -> usize {
        match self {
            Kind::Issue => ISSUES,
            Kind::Account => ACCOUNTS,
        }
    }
}

/// The names of issues and accounts, and the date of day 0, as far as they are given.
#[derive(Clone, Debug, Default, PartialEq, Eq)]
pub struct Names {
    issues: Vec<Option<String>>,
    accounts: Vec<Option<String>>,
    date: Option<Date>,
}

impl Names {
    /// Reads a names file, or tells what is wrong with it. A byte-order mark before the first line is
    /// passed over.
    pub fn parse(text: &str) -> Result<Names, Faults> {
        let text = text.strip_prefix('\u{feff}').unwrap_or(text);
        let (mut names, mut faults) = (Names::default(), Faults::default());
        for (number, line) in (1..).zip(text.lines()) {
            let mut words = words_of(line, number);
            let Some(first) = words.next() else { continue };
            // One more than a line can take is enough to tell that they are too many.
            let arguments: Vec<Word> = words.take(MOST_WORDS + 1).collect();
            faults.extend(names.line(&first, &arguments).err());
        }
        if faults.is_empty() {
            return Ok(names);
        }
        Err(faults)
    }

    /// Takes a line.
    fn line(&mut self, first: &Word, arguments: &[Word]) -> Result<(), Fault> {
        match first.text {
            "date" => self.day_0(first, arguments),
            "issue" => self.name_one(Kind::Issue, first, arguments),
            "account" => self.name_one(Kind::Account, first, arguments),
            other => {
                let what = format!("there is no line {}: write one of {FORMS}", shown(other));
                Err(first.fault(what))
            }
        }
    }

    /// Takes the date of day 0.
    fn day_0(&mut self, first: &Word, arguments: &[Word]) -> Result<(), Fault> {
        let [word] = arguments else { return Err(wants(first, "a date", arguments)) };
        if let Some(date) = self.date {
            let what = format!("day 0 has the date {date} already: leave one of the two lines out");
            return Err(first.fault(what));
        }
        self.date = Some(Date::parse(word.text).map_err(|what| word.fault(what))?);
        Ok(())
    }

    /// Takes the name of an issue or an account.
    fn name_one(&mut self, kind: Kind, first: &Word, arguments: &[Word]) -> Result<(), Fault> {
        let [number, name] = arguments else {
            return Err(wants(first, "a number and a name", arguments));
        };
        let at = number_of(kind, number)?;
        is_name(name.text).map_err(|what| name.fault(what))?;
        if let Some(other) = self.name(kind, at) {
            let what = format!("{} {at} has the name {other} already", kind.word());
            return Err(number.fault(format!("{what}: leave one of the two lines out")));
        }
        if let Some(other) = self.number(kind, name.text) {
            let what = format!("{} is the name of {} {other} already", name.text, kind.word());
            return Err(name.fault(format!("{what}: write another name")));
        }
        let given = match kind {
            Kind::Issue => &mut self.issues,
            Kind::Account => &mut self.accounts,
        };
        given.resize(kind.count(), None);
        given[at as usize] = Some(name.text.to_string());
        Ok(())
    }

    /// The names of a kind, by number.
    fn given(&self, kind: Kind) -> &[Option<String>] {
        match kind {
            Kind::Issue => &self.issues,
            Kind::Account => &self.accounts,
        }
    }

    /// The name of an issue or an account, if it has one.
    pub fn name(&self, kind: Kind, number: u32) -> Option<&str> {
        self.given(kind).get(number as usize)?.as_deref()
    }

    /// The number of the issue or the account that has this name.
    pub fn number(&self, kind: Kind, name: &str) -> Option<u32> {
        let at = self.given(kind).iter().position(|given| given.as_deref() == Some(name));
        at.map(|at| at as u32)
    }

    /// An issue as it is told: its name where it has one, otherwise its number.
    pub fn issue(&self, number: u32) -> Called<'_> {
        Called { name: self.issue_name(number), number }
    }

    /// An account as it is told: its name where it has one, otherwise its number.
    pub fn account(&self, number: u32) -> Called<'_> {
        Called { name: self.account_name(number), number }
    }

    /// The number of the issue that has this name.
    pub fn issue_number(&self, name: &str) -> Option<u32> {
        self.number(Kind::Issue, name)
    }

    /// The number of the account that has this name.
    pub fn account_number(&self, name: &str) -> Option<u32> {
        self.number(Kind::Account, name)
    }

    /// The name of an issue, if it has one.
    pub fn issue_name(&self, number: u32) -> Option<&str> {
        self.name(Kind::Issue, number)
    }

    /// The name of an account, if it has one.
    pub fn account_name(&self, number: u32) -> Option<&str> {
        self.name(Kind::Account, number)
    }

    /// The date of day 0, if it is given.
    pub fn date(&self) -> Option<Date> {
        self.date
    }

    /// Is there no name and no date?
    pub fn is_empty(&self) -> bool {
        self.issues.is_empty() && self.accounts.is_empty() && self.date.is_none()
    }

    /// The number of a word that is a name. It is none where nothing is named or the word begins with no
    /// letter: then it must be a number. An error is that there is no such name, with those that there
    /// are.
    pub fn named(&self, kind: Kind, word: &str) -> Result<Option<u32>, String> {
        if self.is_empty() || !word.starts_with(char::is_alphabetic) {
            return Ok(None);
        }
        self.number(kind, word).map(Some).ok_or_else(|| self.unknown(kind, word))
    }

    /// What is said of a word that is no name of the kind: the names that there are, or of many the one
    /// that is nearest.
    fn unknown(&self, kind: Kind, word: &str) -> String {
        let given: Vec<&str> = self.given(kind).iter().flatten().map(String::as_str).collect();
        let what = kind.word();
        let known = match given.len() {
            0 => format!("the names file names no {what}, write its number"),
            1..=MOST_LISTED => format!("the names file has {}", given.join(", ")),
            count => {
                let nearest = given.iter().min_by_key(|name| distance(name, word));
                let names = counted(count, "name");
                format!("the names file has {names}, the nearest is {}", nearest.unwrap_or(&""))
            }
        };
        format!("there is no {what} {}: {known}", shown(word))
    }
}

/// What is said of a line with too few words or too many.
fn wants(first: &Word, wanted: &str, arguments: &[Word]) -> Fault {
    let here = match arguments.len() {
        count if count > MOST_WORDS => format!("here are more than {MOST_WORDS} words"),
        1 => "here is 1 word".to_string(),
        count => format!("here are {}", counted(count, "word")),
    };
    first.fault(format!("{} takes {wanted}; {here}", first.text))
}

/// The number of an issue or an account in a names file.
fn number_of(kind: Kind, word: &Word) -> Result<u32, Fault> {
    let number: Option<u32> = digits_of(word.text).and_then(|digits| digits.parse().ok());
    number.filter(|number| (*number as usize) < kind.count()).ok_or_else(|| {
        let (what, most) = (kind.word(), kind.count() - 1);
        word.fault(format!("{} is no {what}: write a number from 0 to {most}", shown(word.text)))
    })
}

/// Is this a name? If not, what is wrong with it.
fn is_name(word: &str) -> Result<(), String> {
    let wrong = word.chars().find(|letter| !letter.is_alphanumeric() && !SIGNS.contains(letter));
    let (shown, letters) = (shown(word), word.chars().count());
    if !word.starts_with(char::is_alphabetic) {
        return Err(format!("{shown} is no name: begin it with a letter"));
    }
    if let Some(wrong) = wrong {
        let signs: String = SIGNS.iter().map(|sign| format!(" {sign}")).collect();
        return Err(format!("{shown} is no name with {wrong:?}: take letters, digits and{signs}"));
    }
    if letters > MOST_LETTERS {
        return Err(format!("{shown} is too long for a name: take at most {MOST_LETTERS} letters"));
    }
    if WORDS.contains(&word) {
        return Err(format!("{shown} is a word of the text form: take another name"));
    }
    Ok(())
}

/// How many letters must be put in, left out or changed to make one word of another, letters of either
/// case taken as one.
fn distance(one: &str, other: &str) -> usize {
    let other: Vec<char> = other.to_lowercase().chars().take(MOST_LETTERS).collect();
    let mut row: Vec<usize> = (0..=other.len()).collect();
    for (at, letter) in one.to_lowercase().chars().enumerate() {
        let mut corner = at;
        row[0] = at + 1;
        for (column, theirs) in other.iter().enumerate() {
            let changed = corner + usize::from(letter != *theirs);
            corner = row[column + 1];
            row[column + 1] = changed.min(corner + 1).min(row[column] + 1);
        }
    }
    row[other.len()]
}

/// An issue or an account as it is told: its name where it has one, otherwise its number.
#[derive(Clone, Copy, Debug, PartialEq, Eq)]
pub struct Called<'a> {
    /// Its name, if it has one.
    pub name: Option<&'a str>,
    /// Its number.
    pub number: u32,
}

impl Piece for Called<'_> {
    #[inline(always)]
    fn put(&self, out: &mut impl Text) -> io::Result<()> {
        match self.name {
            Some(name) => name.put(out),
            None => u64::from(self.number).put(out),
        }
    }
}

impl fmt::Display for Called<'_> {
    fn fmt(&self, text: &mut fmt::Formatter) -> fmt::Result {
        match self.name {
            Some(name) => text.pad(name),
            None => fmt::Display::fmt(&self.number, text),
        }
    }
}

/// A date of the Gregorian calendar, by its days since 1970-01-01.
#[derive(Clone, Copy, Debug, PartialEq, Eq, PartialOrd, Ord)]
pub struct Date(i64);

/// The days of 400 years, after which the calendar repeats itself.
const ERA: i64 = 146_097;
/// The days from 0000-03-01 to 1970-01-01.
const BEFORE_1970: i64 = 719_468;

impl Date {
    /// The date of a word, `YYYY-MM-DD`, or what is wrong with it.
    pub fn parse(word: &str) -> Result<Date, String> {
        let wrong = || {
            let shown = shown(word);
            format!("{shown} is no date: write it as YYYY-MM-DD, a day that the calendar has")
        };
        let parts: Vec<&str> = word.split('-').collect();
        let [year, month, day] = parts[..] else { return Err(wrong()) };
        let all_digits = word.bytes().all(|byte| byte.is_ascii_digit() || byte == b'-');
        if !all_digits || [year.len(), month.len(), day.len()] != [4, 2, 2] {
            return Err(wrong());
        }
        let numbers: Vec<i64> = parts.iter().filter_map(|part| part.parse().ok()).collect();
        let [year, month, day] = numbers[..] else { return Err(wrong()) };
        if !(FIRST_YEAR..=LAST_YEAR).contains(&year) {
            return Err(format!("{word}: write a year from {FIRST_YEAR} to {LAST_YEAR}"));
        }
        let date = Date::of(year, month, day);
        if (1..=12).contains(&month) && date.parts() == (year, month, day) {
            return Ok(date);
        }
        Err(wrong())
    }

    /// The date so many days later.
    pub fn after(self, days: u32) -> Date {
        Date(self.0 + i64::from(days))
    }

    /// The date of a year, a month and a day. A year is counted from March, so that the day that a leap
    /// year has more is its last.
    fn of(year: i64, month: i64, day: i64) -> Date {
        let year = if month <= 2 { year - 1 } else { year };
        let of_era = year.rem_euclid(400);
        let of_year = (153 * ((month + 9) % 12) + 2) / 5 + day - 1;
        let days = of_era * 365 + of_era / 4 - of_era / 100 + of_year;
        Date(year.div_euclid(400) * ERA + days - BEFORE_1970)
    }

    /// Its year, month and day.
    fn parts(self) -> (i64, i64, i64) {
        let days = self.0 + BEFORE_1970;
        let of_era = days.rem_euclid(ERA);
        let years = (of_era - of_era / 1_460 + of_era / 36_524 - of_era / 146_096) / 365;
        let of_year = of_era - (365 * years + years / 4 - years / 100);
        let from_march = (5 * of_year + 2) / 153;
        let day = of_year - (153 * from_march + 2) / 5 + 1;
        let month = if from_march < 10 { from_march + 3 } else { from_march - 9 };
        let year = days.div_euclid(ERA) * 400 + years + i64::from(month <= 2);
        (year, month, day)
    }
}

impl fmt::Display for Date {
    fn fmt(&self, text: &mut fmt::Formatter) -> fmt::Result {
        let (year, month, day) = self.parts();
        write!(text, "{year:04}-{month:02}-{day:02}")
    }
}

#[cfg(test)]
mod tests {
    use super::*;

    const FILE: &str = "\u{feff}# of the desk\ndate 2026-11-17       # the date of day 0\r\n\n\
        issue 0 JGB-350\nissue 15 Nomura\naccount 5 Nomura\n  account 63 大和証券\n";

    #[test]
    fn names_stand_for_numbers_and_back() {
        let names = Names::parse(FILE).unwrap();
        let issues = [0, 15, 5].map(|issue| names.issue(issue).to_string());
        assert_eq!(issues, ["JGB-350", "Nomura", "5"]);
        let accounts = [5, 63, 0, 99].map(|account| names.account(account).to_string());
        assert_eq!(accounts, ["Nomura", "大和証券", "0", "99"]);
        assert_eq!(names.issue_number("Nomura"), Some(15));
        assert_eq!(names.account_number("Nomura"), Some(5));
        assert_eq!((names.issue_number("大和証券"), names.issue_number("0")), (None, None));
        assert_eq!((names.issue_name(0), names.issue_name(16)), (Some("JGB-350"), None));
        assert_eq!((names.account_name(63), names.account_name(0)), (Some("大和証券"), None));
        assert_eq!(names.date().map(|date| date.to_string()).as_deref(), Some("2026-11-17"));
        let (account, number) = (names.account(5), names.account(7));
        assert_eq!(format!("{account:>8}|{number:<3}|{number:>3}"), "  Nomura|7  |  7");
        assert!(!names.is_empty() && Names::default().is_empty());
        assert_eq!(Names::parse("# nothing\n\n"), Ok(Names::default()));
        assert!(Names::default().date().is_none());
    }

    #[test]
    fn a_name_has_letters_digits_and_five_signs() {
        let longest = "円".repeat(MOST_LETTERS);
        for name in ["a", "Ünal", "野村", "A-B_c.d&e/9", "tradE", "closed", longest.as_str()] {
            let names = Names::parse(&format!("account 0 {name}\n")).unwrap();
            assert_eq!(names.account_number(name), Some(0), "{name}");
        }
    }

    #[test]
    fn each_wrong_line_is_told_with_its_place() {
        let long = format!("account 5 {}", "a".repeat(MOST_LETTERS + 1));
        for (line, column, told) in [
            ("isue 0 JGB", 1, "there is no line \"isue\": write one of date YYYY-MM-DD, issue"),
            ("issue 0", 1, "issue takes a number and a name; here is 1 word"),
            ("account", 1, "account takes a number and a name; here are 0 words"),
            ("account 5 A B", 1, "account takes a number and a name; here are more than 2 words"),
            ("date", 1, "date takes a date; here are 0 words"),
            ("date 2026 11", 1, "date takes a date; here are 2 words"),
            ("issue 16 A", 7, "\"16\" is no issue: write a number from 0 to 15"),
            ("account 64 A", 9, "\"64\" is no account: write a number from 0 to 63"),
            ("account -1 A", 9, "\"-1\" is no account: write a number from 0 to 63"),
            ("account A 5", 9, "\"A\" is no account: write a number from 0 to 63"),
            ("  account 5 5th", 13, "\"5th\" is no name: begin it with a letter"),
            ("account 5 -a", 11, "\"-a\" is no name: begin it with a letter"),
            ("account 5 a!", 11, "\"a!\" is no name with '!': take letters, digits and - _ . & /"),
            ("account 5 a,b", 11, "\"a,b\" is no name with ','"),
            (long.as_str(), 11, "\"aaaaaaaaaaaaaaaaaaaaaaaaaaaaaaaaa\" is too long for a name"),
            ("issue 1 roll", 9, "\"roll\" is a word of the text form: take another name"),
            ("account 1 pair-off", 11, "\"pair-off\" is a word of the text form"),
            (
                "issue 0 Again",
                7,
                "issue 0 has the name JGB-350 already: leave one of the two lines",
            ),
            ("account 6 Nomura", 11, "Nomura is the name of account 5 already: write another name"),
            ("date 2027-01-01", 1, "day 0 has the date 2026-11-17 already: leave one of the two"),
        ] {
            let faults = Names::parse(&format!("{FILE}{line}\n")).unwrap_err();
            assert_eq!(faults.count, 1, "{line}: {faults:?}");
            let fault = &faults.first[0];
            assert_eq!((fault.line, fault.column), (8, column), "{line}: {fault}");
            assert!(fault.what.starts_with(told), "{line}: {fault}");
        }
    }

    #[test]
    fn a_date_that_the_calendar_lacks_is_told() {
        for date in [
            "2026-02-29",
            "2100-02-29",
            "2026-13-01",
            "2026-00-01",
            "2026-11-31",
            "2026-11-00",
            "26-11-17",
            "2026-11-7",
            "2026/11/17",
            "2026-11-17-1",
            "2026-11-1x",
            "+026-11-17",
            "x",
        ] {
            let faults = Names::parse(&format!("date {date}\n")).unwrap_err();
            let told = format!("{date:?} is no date: write it as YYYY-MM-DD, a day that the");
            assert!(faults.first[0].what.starts_with(&told), "{date}: {faults:?}");
            assert_eq!((faults.first[0].line, faults.first[0].column), (1, 6));
        }
        for date in ["1582-12-31", "7001-01-01", "0000-01-01"] {
            let error = Date::parse(date).unwrap_err();
            assert_eq!(error, format!("{date}: write a year from 1583 to 7000"));
        }
    }

    #[test]
    fn dates_are_those_of_the_calendar() {
        let leap = |year: i64| year % 4 == 0 && (year % 100 != 0 || year % 400 == 0);
        let mut date = Date::parse("1583-01-01").unwrap();
        for year in 1_583..2_500 {
            for month in 1..=12 {
                let days = match month {
                    2 => 28 + i64::from(leap(year)),
                    4 | 6 | 9 | 11 => 30,
                    _ => 31,
                };
                for day in 1..=days {
                    assert_eq!(date.parts(), (year, month, day));
                    assert_eq!(Date::of(year, month, day), date);
                    date = date.after(1);
                }
                assert!(Date::parse(&format!("{year}-{month:02}-{}", days + 1)).is_err());
            }
        }
        assert_eq!(Date::parse("1970-01-01"), Ok(Date(0)));
        let later = Date::parse("2026-12-30").unwrap().after(12);
        assert_eq!(later.to_string(), "2027-01-11");
        let last = Date::parse("7000-12-31").unwrap().after(12 * u32::from(u16::MAX));
        assert_eq!(last.to_string().len(), 10, "{last}");
    }

    #[test]
    fn of_a_name_that_is_unknown_those_that_there_are_or_the_nearest_are_told() {
        let names = Names::parse(FILE).unwrap();
        let told = |kind, word| names.named(kind, word).unwrap_err();
        let nomra = "there is no account \"Nomra\": the names file has Nomura, 大和証券";
        assert_eq!(told(Kind::Account, "Nomra"), nomra);
        assert!(told(Kind::Issue, "Jgb-350").ends_with("the names file has JGB-350, Nomura"));
        assert_eq!(names.named(Kind::Account, "Nomura"), Ok(Some(5)));
        for number in ["7", "-", ""] {
            assert_eq!(names.named(Kind::Account, number), Ok(None));
        }
        assert_eq!(Names::default().named(Kind::Account, "Nomura"), Ok(None));
        let dated = Names::parse("date 2026-11-17\n").unwrap();
        let none = "there is no issue \"A\": the names file names no issue, write its number";
        assert_eq!(dated.named(Kind::Issue, "A").unwrap_err(), none);
        let names = ["Nomura", "Daiwa", "Mizuho", "SMBC", "MUFG", "Citi", "Goldman", "UBS", "BNP"];
        let lines = (0..).zip(names).map(|(number, name)| format!("account {number} {name}\n"));
        let many = Names::parse(&lines.collect::<String>()).unwrap();
        for (word, nearest) in [("Nomra", "Nomura"), ("daiwa", "Daiwa"), ("Goldmann", "Goldman")] {
            let told = format!("the names file has 9 names, the nearest is {nearest}");
            assert!(many.named(Kind::Account, word).unwrap_err().ends_with(&told), "{word}");
        }
        assert!(many.named(Kind::Account, &"x".repeat(1_000_000)).is_err());
    }

    #[test]
    fn a_file_that_is_wrong_throughout_takes_no_more_room() {
        let faults = Names::parse(&"sell everything now\n".repeat(200_000)).unwrap_err();
        assert_eq!((faults.first.len(), faults.count), (12, 200_000));
    }
}
