//! Names on the command line: the names file, issues and accounts by their names, a day by its date.

use super::{get, name_of, STANDARD_ONCE};
use crate::input::{errors, text_of, Day};
use crate::names::{Date, Kind, Names};
use crate::options::{number, Given, Opt, NAMES};
use crate::standing::{run, When};
use std::ffi::OsStr;
use std::ops::RangeInclusive;

/// The names of the file that a command names by `--names`, beside the days that it reads; none where it
/// names no such file.
pub(super) fn names_of(given: &Given) -> Result<Names, String> {
    let days = &given.names;
    let read = days.is_empty() || days.iter().any(|day| day == "-");
    if read && given.value(&NAMES).is_some_and(|file| file == "-") {
        return Err(STANDARD_ONCE.to_string());
    }
    names_in(given)
}

/// The names of the file that a command names by `--names`; none where it names no such file.
pub(super) fn names_in(given: &Given) -> Result<Names, String> {
    let Some(file) = given.value(&NAMES) else { return Ok(Names::default()) };
    let name = name_of(file);
    let text = text_of(&name, get(file)?)?;
    Names::parse(&text).map_err(|faults| errors(&name, &faults))
}

/// The issue or the account of a word: its name, or a number in the range. `what` is what the word is
/// called on the command line.
pub(super) fn called(
    names: &Names,
    kind: Kind,
    what: &str,
    word: &OsStr,
    range: RangeInclusive<u32>,
) -> Result<u32, String> {
    let named = word.to_str().map_or(Ok(None), |word| names.named(kind, word));
    match named.map_err(|error| format!("{what}: {error}"))? {
        Some(found) => Ok(found),
        None => number(what, word, range),
    }
}

/// The issue or the account of an option, if it is given.
pub(super) fn option_called(
    given: &Given,
    names: &Names,
    kind: Kind,
    option: &Opt,
) -> Result<Option<u32>, String> {
    let word = given.value(option);
    let most = kind.count() as u32 - 1;
    word.map(|word| called(names, kind, option.name, word, 0..=most)).transpose()
}

/// A day as an option names it.
#[derive(Clone, Copy, Debug, PartialEq, Eq)]
pub(super) enum DayNamed {
    Number(u16),
    Date(Date),
}

/// The day that an option names, if it is given: by its number, or by its date, which has `-` behind its
/// first digit.
pub(super) fn day_named(given: &Given, option: &Opt) -> Result<Option<DayNamed>, String> {
    let is_date = |word: &&str| word.starts_with(|sign: char| sign.is_ascii_digit());
    let word = given.value(option).and_then(OsStr::to_str);
    match word.filter(is_date).filter(|word| word.contains('-')) {
        Some(word) => match Date::parse(word) {
            Ok(date) => Ok(Some(DayNamed::Date(date))),
            Err(error) => Err(format!("{}: {error}", option.name)),
        },
        None => Ok(given.number(option, 0..=u16::MAX)?.map(DayNamed::Number)),
    }
}

/// The number of a day that an option names. For a date the tape is run, since its rolls say how far the
/// days lie apart; it can be read again then.
pub(super) fn day_number(named: DayNamed, option: &Opt, day: &mut Day) -> Result<u16, String> {
    match named {
        DayNamed::Number(number) => Ok(number),
        DayNamed::Date(date) => {
            day.keep()?;
            let found = run(day, When::End)?.known.day_of(date);
            found.map_err(|error| format!("{} {date}: {error}", option.name))
        }
    }
}
