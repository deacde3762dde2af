//! `tape jam`: whether smaller units would loosen a jam.

use super::{day_of, get, name_of, put, Ended, Verb};
use crate::input::{errors, text_of};
use crate::jam::{desk_of, sizes_of, try_sizes, SIZES};
use crate::options::{flag, valued, Given, Opt, HEX, JSON, NAMES, WORDS};
use crate::standing::{run, When};

const HTML: Opt = flag("--html");
const LIST: Opt = valued("--sizes", "numbers from 1 to 100000 with a comma between");

pub(super) const VERB: Verb = Verb {
    name: "jam",
    usage: "\
tape jam [--hex | --words] [--names FILE] [--json | --html] [--sizes N,N..] DAY.. DESK
        tries unit sizes on a simulated desk, from the nets of the tape's book at its end: DESK is a
        text with a line `settles ACCOUNT SETTLEMENT` for each account and a line
        `holds SETTLEMENT ISSUE LOTS` for what each settlement account holds at the opening",
    options: &[HEX, WORDS, NAMES, JSON, HTML, LIST],
    act,
};

fn act(given: &Given) -> Result<Ended, String> {
    given.not_both(&JSON, &HTML)?;
    let [days @ .., desk] = given.names.as_slice() else {
        return Err(format!("jam needs a day and a desk:\n{}", VERB.usage));
    };
    if days.is_empty() {
        return Err(format!("jam needs a day and a desk:\n{}", VERB.usage));
    }
    let sizes = match given.value(&LIST) {
        Some(list) => sizes_of(&list.to_string_lossy())?,
        None => SIZES.to_vec(),
    };
    let stood = run(&day_of(given, days)?, When::End)?;
    let name = name_of(desk);
    let text = text_of(&name, get(desk)?)?;
    let desk = desk_of(&text, &stood).map_err(|faults| errors(&name, &faults))?;
    let tried = try_sizes(&stood, &desk, &sizes).map_err(|refusal| refusal.said())?;
    let told = match (given.has(&JSON), given.has(&HTML)) {
        (true, _) => tried.json(),
        (_, true) => tried.html(),
        _ => tried.text(),
    };
    put(given, told.as_bytes())
}
