//! `tape statement`: an account's fails statement over a tape's span.

use super::naming::called;
use super::{day_by, names_of, put, Ended, Verb};
use crate::names::Kind;
use crate::options::{flag, Given, Opt, HEX, JSON, NAMES, WORDS};
use crate::statement::Told;
use settlement_day::{ACCOUNTS, ISSUES};

const HTML: Opt = flag("--html");
const ALL: Opt = flag("--all");

pub(super) const VERB: Verb = Verb {
    name: "statement",
    usage: "\
tape statement [--hex | --words] [--names FILE] [--json | --html] DAY.. ISSUE ACCOUNT
tape statement [--hex | --words] [--names FILE] [--json | --html] --all [DAY..]
        tells an account's lots due, delivered, failed and resolved in an issue, from the tape's
        first 4,096 instructions, or with --all those of every issue and account that has any",
    options: &[HEX, WORDS, NAMES, JSON, HTML, ALL],
    act,
};

fn act(given: &Given) -> Result<Ended, String> {
    given.not_both(&JSON, &HTML)?;
    let names = names_of(given)?;
    let told = if given.has(&ALL) {
        Told::all(&day_by(given, &given.names, names)?)
    } else {
        let [days @ .., issue, account] = given.names.as_slice() else {
            return Err(format!("statement needs a day, an issue and an account:\n{}", VERB.usage));
        };
        if days.is_empty() {
            return Err(format!("statement needs a day, an issue and an account:\n{}", VERB.usage));
        }
        let (most_issue, most_account) = (ISSUES as u32 - 1, ACCOUNTS as u32 - 1);
        let issue = called(&names, Kind::Issue, "ISSUE", issue, 0..=most_issue)?;
        let account = called(&names, Kind::Account, "ACCOUNT", account, 0..=most_account)?;
        Told::one(&day_by(given, days, names)?, issue, account)
    }?;
    let told = match (given.has(&JSON), given.has(&HTML)) {
        (true, _) => told.json(),
        (_, true) => told.html(),
        _ => told.text(),
    };
    put(given, told.as_bytes())
}
