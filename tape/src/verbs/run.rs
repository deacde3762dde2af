//! `tape run`: the program on a tape.

use super::{day_of, say, Ended, Verb};
use crate::options::{valued, Given, Opt, HEX, NAMES, WORDS};
use crate::output::Output;
use crate::run::{self, Ran};
use std::path::Path;

/// Where the program is.
const PROGRAM: Opt = valued("--program", "a path");

pub(super) const VERB: Verb = Verb {
    name: "run",
    usage: "\
tape run [--hex | --words] [--names FILE] [--program PATH] [DAY..]
        runs dayrun on a tape, the one beside this tool, target/bin/dayrun, or PATH; says where its
        lines are not whole",
    options: &[HEX, WORDS, NAMES, PROGRAM],
    act,
};

fn act(given: &Given) -> Result<Ended, String> {
    let output = Output::of(given)?;
    let day = day_of(given, &given.names)?;
    let program = run::found(given.value(&PROGRAM).map(Path::new))?;
    let mut writer = output.open()?;
    match run::run(&program, &day, &mut writer)? {
        Ran::Whole => writer.keep().map(|()| Ended::Well),
        Ran::Ended(why) => {
            say(&why);
            writer.keep().map(|()| Ended::Badly)
        }
        Ran::Cut(why) => {
            say(&why);
            if writer.can_be_left() {
                say("no file is written");
            }
            Ok(Ended::Badly)
        }
    }
}
