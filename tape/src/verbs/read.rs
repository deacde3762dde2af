//! `tape read`: the words of a tape into the text form.

use super::{names_of, one_file, put_by, taken, Ended, Verb};
use crate::input::{wants_words, Day, Taken};
use crate::options::{Given, HEX, NAMES, WORDS};
use crate::source::Source;
use crate::text;

pub(super) const VERB: Verb = Verb {
    name: "read",
    usage: "\
tape read [--hex | --words] [--names FILE] [TAPE]
        turns the words of a tape into the text form",
    options: &[HEX, WORDS, NAMES],
    act,
};

fn act(given: &Given) -> Result<Ended, String> {
    let file = one_file(given)?;
    let (taken, names) = (taken(given)?, names_of(given)?);
    let mut source = Source::open(file)?;
    if taken == Taken::Apart {
        wants_words(&mut source)?;
    }
    let mut day = Day::by(names);
    day.put(source, taken)?;
    put_by(given, |out| text::tell(&day, out))
}
