//! `tape check`: what the book will refuse.

use super::{day_of, Ended, Verb};
use crate::check::{check, line, Checked};
use crate::facts::Told;
use crate::input::Day;
use crate::options::{Given, HEX, JSON, NAMES, WORDS};
use crate::output::{Output, Untold};
use crate::telling::json;
use std::io::{BufWriter, Write};

pub(super) const VERB: Verb = Verb {
    name: "check",
    usage: "\
tape check [--hex | --words] [--names FILE] [--json] [DAY..]
        says what the book will refuse, line by line, or as JSON an object for each refusal and one
        with the counts",
    options: &[HEX, WORDS, NAMES, JSON],
    act,
};

fn act(given: &Given) -> Result<Ended, String> {
    let output = Output::of(given)?;
    let day = day_of(given, &given.names)?;
    let mut writer = output.open()?;
    let checked = tell(&day, given.has(&JSON), &mut writer);
    let checked = checked.map_err(|untold| writer.untold(untold))?;
    writer.keep()?;
    Ok(if checked.refused == 0 { Ended::Well } else { Ended::Badly })
}

/// Tells each refusal, and the counts, in lines or as objects.
fn tell(day: &Day, as_json: bool, writer: &mut dyn Write) -> Result<Checked, Untold> {
    let mut out = BufWriter::new(writer);
    let checked = check(day, &mut |told: &Told| match as_json {
        true => json::tell_at(&mut out, told, told.stands),
        false => writeln!(out, "{}", line(told)),
    })?;
    let counts = if as_json { checked.json() } else { checked.text() };
    out.write_all(counts.as_bytes())?;
    out.flush()?;
    Ok(checked)
}
