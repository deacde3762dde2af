//! `tape explain`: what a tape does, day by day.

use super::naming::{day_named, day_number, option_called};
use super::{day_by, names_of, Ended, Verb};
use crate::names::Kind;
use crate::options::{flag, valued, Given, Opt, HEX, JSON, NAMES, WORDS};
use crate::output::Output;
use crate::telling::{explain, Form, Only};

const HTML: Opt = flag("--html");
const ISSUE: Opt = valued("--issue", "a number from 0 to 15");
const ACCOUNT: Opt = valued("--account", "a number from 0 to 63");
const DAY: Opt = valued("--day", "a number from 0 to 65535");

pub(super) const VERB: Verb = Verb {
    name: "explain",
    usage: "\
tape explain [--hex | --words] [--names FILE] [--json | --html] [--issue N] [--account N] [--day N]
             [DAY..]
        runs a tape and tells what it does, day by day, or only what is of an issue, an account or a
        day: as text, as JSON (one object a line) or as one page of HTML, with --account N the
        account's page",
    options: &[HEX, WORDS, NAMES, JSON, HTML, ISSUE, ACCOUNT, DAY],
    act,
};

fn act(given: &Given) -> Result<Ended, String> {
    given.not_both(&JSON, &HTML)?;
    let form = match (given.has(&JSON), given.has(&HTML)) {
        (true, _) => Form::Json,
        (_, true) => Form::Html,
        _ => Form::Text,
    };
    let names = names_of(given)?;
    let issue = option_called(given, &names, Kind::Issue, &ISSUE)?;
    let account = option_called(given, &names, Kind::Account, &ACCOUNT)?;
    let wanted = day_named(given, &DAY)?;
    let output = Output::of(given)?;
    let mut day = day_by(given, &given.names, names)?;
    let wanted = wanted.map(|named| day_number(named, &DAY, &mut day)).transpose()?;
    let only = Only { issue, account, day: wanted };
    let mut writer = output.open()?;
    let last = explain(&day, form, only, &mut writer);
    let last = last.map_err(|untold| writer.untold(untold))?;
    if let Some(wanted) = only.day.filter(|wanted| *wanted > last) {
        return Err(format!("--day {wanted}: the tape ends on day {last}"));
    }
    writer.keep()?;
    Ok(Ended::Well)
}
