//! `tape why`: why a unit has not come, or all units of an account.

use super::naming::{called, day_named, day_number, option_called};
use super::{day_by, names_of, put, Ended, Verb};
use crate::input::Day;
use crate::names::{Kind, Names};
use crate::options::{number, valued, Given, Opt, HEX, JSON, NAMES, WORDS};
use crate::standing::When;
use crate::{account, status};
use std::ffi::OsString;

const AT: Opt = valued("--at", "the number of a word");
const DAY: Opt = valued("--day", "a number from 0 to 65535");
const ISSUE: Opt = valued("--issue", "a number from 0 to 15");
const ACCOUNT: Opt = valued("--account", "a number from 0 to 63");

pub(super) const VERB: Verb = Verb {
    name: "why",
    usage: "\
tape why [--hex | --words] [--names FILE] [--json] [--at WORD | --day N] DAY.. ISSUE UNIT
tape why [--hex | --words] [--names FILE] [--json] [--at WORD | --day N] --account N --issue N
         [DAY..]
        tells why a unit has not come, at the end of the tape, before the instruction that begins at
        a word, or at the end of a day; or of all units of an account in an issue, at the end of the
        last day that was closed if no other moment is named",
    options: &[HEX, WORDS, NAMES, JSON, AT, DAY, ISSUE, ACCOUNT],
    act,
};

fn act(given: &Given) -> Result<Ended, String> {
    given.not_both(&AT, &DAY)?;
    let names = names_of(given)?;
    let issue = option_called(given, &names, Kind::Issue, &ISSUE)?;
    let (told, refused) = match (issue, option_called(given, &names, Kind::Account, &ACCOUNT)?) {
        (Some(issue), Some(account)) => of_account(given, names, issue, account)?,
        (None, None) => of_unit(given, names)?,
        _ => return Err(format!("--account and --issue go together:\n{}", VERB.usage)),
    };
    put(given, told.as_bytes())?;
    Ok(if refused { Ended::Badly } else { Ended::Well })
}

/// The day of these files, and the moment that the command names, if it names one.
fn asked(given: &Given, names: Names, files: &[OsString]) -> Result<(Day, Option<When>), String> {
    let (at, named) = (given.number(&AT, 0..=usize::MAX)?, day_named(given, &DAY)?);
    let mut day = day_by(given, files, names)?;
    let end = named.map(|named| day_number(named, &DAY, &mut day)).transpose()?;
    Ok((day, at.map(When::Before).or(end.map(When::EndOf))))
}

/// What is told of a unit, and whether it was refused.
fn of_unit(given: &Given, names: Names) -> Result<(String, bool), String> {
    let needs = || format!("why needs a day, an issue and a unit:\n{}", VERB.usage);
    let [days @ .., issue, unit] = given.names.as_slice() else { return Err(needs()) };
    if days.is_empty() {
        return Err(needs());
    }
    let issue = called(&names, Kind::Issue, "ISSUE", issue, 0..=u32::MAX)?;
    let unit = number("UNIT", unit, 0..=u32::MAX)?;
    let (day, when) = asked(given, names, days)?;
    let question = status::Question { issue, unit, when: when.unwrap_or_default() };
    let told = status::ask(&day, question)?;
    let text = if given.has(&JSON) { told.json() } else { told.sentence() };
    Ok((text, told.refused()))
}

/// What is told of an account's units, and whether it was refused.
fn of_account(
    given: &Given,
    names: Names,
    issue: u32,
    account: u32,
) -> Result<(String, bool), String> {
    let (day, when) = asked(given, names, &given.names)?;
    let when = when.unwrap_or(When::LastClosed);
    let told = account::ask(&day, account::Question { issue, account, when })?;
    let text = if given.has(&JSON) { told.json() } else { told.sentences() };
    Ok((text, told.refused()))
}
