//! `tape diff`: what differs between two tapes.

use super::{day_by, names_of, standard_once, taken, Ended, Verb};
use crate::diff::{diff, Form};
use crate::input::Day;
use crate::options::{Given, HEX, JSON, NAMES, WORDS};
use crate::output::Output;
use std::ffi::OsString;
use std::slice;

pub(super) const VERB: Verb = Verb {
    name: "diff",
    usage: "\
tape diff [--hex | --words] [--names FILE] [--json] A B
        tells what differs between two tapes, day by day: the instructions, and what they changed;
        the status is 0 where nothing differs and 1 where something does",
    options: &[HEX, WORDS, NAMES, JSON],
    act,
};

fn act(given: &Given) -> Result<Ended, String> {
    let [one, other] = given.names.as_slice() else {
        return Err(format!("diff needs two tapes:\n{}", VERB.usage));
    };
    let output = Output::of(given)?;
    standard_once(given.names.iter().map(OsString::as_os_str))?;
    taken(given)?;
    let [one, other] = both(given, [one, other])?;
    let form = if given.has(&JSON) { Form::Json } else { Form::Text };
    let mut writer = output.open()?;
    let differs = diff([&one, &other], form, &mut writer);
    let differs = differs.map_err(|untold| writer.untold(untold))?;
    writer.keep()?;
    Ok(if differs { Ended::Badly } else { Ended::Well })
}

/// The days of two files; what is wrong with either is told.
fn both(given: &Given, files: [&OsString; 2]) -> Result<[Day; 2], String> {
    let names = names_of(given)?;
    match files.map(|file| day_by(given, slice::from_ref(file), names.clone())) {
        [Ok(one), Ok(other)] => Ok([one, other]),
        days => {
            let errors: Vec<String> = days.into_iter().filter_map(Result::err).collect();
            Err(errors.join("\n"))
        }
    }
}
