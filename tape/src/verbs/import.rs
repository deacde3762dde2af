//! `tape import`: the text form of a day from CSV files.

use super::naming::names_in;
use super::{put_by, standard_once, Ended, Verb};
use crate::import::{File, Files, Roll};
use crate::options::{valued, Given, Opt, NAMES};
use crate::source::Source;
use crate::text;

const TRADES: Opt = valued("--trades", "a file");
const DELIVERIES: Opt = valued("--deliveries", "a file");
const QUOTES: Opt = valued("--quotes", "a file");
const DAYS: Opt = valued("--days", "a number from 1 to 12");
const RATE: Opt = valued("--rate", "a number from 0 to 10000");

pub(super) const VERB: Verb = Verb {
    name: "import",
    usage: "\
tape import [--names FILE] [--trades FILE] [--deliveries FILE] [--quotes FILE --days N --rate N]
        makes the text form of one day from CSV files, each with a header line: the trades (issue,
        from, to, lots); close and the deliveries (issue, account, lots); cutoff and a roll over N
        days at the rate N, with the quotes of all sixteen issues (issue, price, accrued)",
    options: &[NAMES, TRADES, DELIVERIES, QUOTES, DAYS, RATE],
    act,
};

fn act(given: &Given) -> Result<Ended, String> {
    let named = [&TRADES, &DELIVERIES, &QUOTES, &NAMES].map(|option| given.value(option));
    if !given.names.is_empty() || named[..3].iter().all(Option::is_none) {
        let files = "import takes its files by --trades, --deliveries and --quotes, one at least";
        return Err(format!("{files}:\n{}", VERB.usage));
    }
    standard_once(named.into_iter().flatten())?;
    let (terms, names) = (terms_of(given)?, names_in(given)?);
    let mut errors = Vec::new();
    let mut file = |option: &Opt| {
        let name = given.value(option)?;
        let read = Source::open(name).and_then(File::of);
        read.map_err(|error| errors.push(error)).ok()
    };
    let (trades, deliveries) = (file(&TRADES), file(&DELIVERIES));
    let quotes = file(&QUOTES).zip(terms);
    let roll = quotes.map(|(quotes, (days, rate))| Roll { quotes, days, rate });
    let files = Files { trades, deliveries, roll, names };
    errors.extend(files.judge().err());
    if !errors.is_empty() {
        return Err(errors.join("\n"));
    }
    put_by(given, |out| files.tell(out))
}

/// Days and rate of the roll, which stand beside the quotes and not without them.
fn terms_of(given: &Given) -> Result<Option<(u32, u32)>, String> {
    let days = given.number(&DAYS, text::DAYS.range())?;
    let rate = given.number(&RATE, text::RATE.range())?;
    if [days.is_some(), rate.is_some()] != [given.has(&QUOTES); 2] {
        return Err("--quotes, --days and --rate go together: a roll has all three".to_string());
    }
    Ok(days.zip(rate))
}
