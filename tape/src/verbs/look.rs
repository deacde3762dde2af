//! `tape look`: what a caller sees of an account.

use super::naming::called;
use super::{day_by, get, name_of, names_of, put, Ended, Verb};
use crate::input::{errors, text_of};
use crate::look::{owners_of, read, Question};
use crate::names::Kind;
use crate::options::{valued, Given, Opt, HEX, JSON, NAMES, WORDS};
use settlement_day::access::OPERATOR;

const AT: Opt = valued("--at", "the number of a word");
const AS: Opt = valued("--as", "the number of a caller");

pub(super) const VERB: Verb = Verb {
    name: "look",
    usage: "\
tape look [--hex | --words] [--names FILE] [--json] [--at WORD] [--as CALLER]
          DAY.. OWNERS ISSUE ACCOUNT
        reads an account: its net in the issue, its charge and its entries there, at the end of
        the tape or before the instruction that begins at a word; --as 0 to 15 reads as that
        participant, otherwise the operator reads. OWNERS is a text with a line `owns
        PARTICIPANT ACCOUNT` for each account that a participant owns",
    options: &[HEX, WORDS, NAMES, JSON, AT, AS],
    act,
};

fn act(given: &Given) -> Result<Ended, String> {
    let needs = || format!("look needs a day, owners, an issue and an account:\n{}", VERB.usage);
    let [days @ .., owners, issue, account] = given.names.as_slice() else {
        return Err(needs());
    };
    if days.is_empty() {
        return Err(needs());
    }
    let (name, names) = (name_of(owners), names_of(given)?);
    let text = text_of(&name, get(owners)?)?;
    let owners = owners_of(&text, &names).map_err(|faults| errors(&name, &faults))?;
    let caller = given.number(&AS, 0..=u32::MAX)?.unwrap_or(OPERATOR);
    let question = Question {
        caller: settlement_day::Caller { number: caller, owners },
        issue: called(&names, Kind::Issue, "ISSUE", issue, 0..=u32::MAX)?,
        account: called(&names, Kind::Account, "ACCOUNT", account, 0..=u32::MAX)?,
        at: given.number(&AT, 0..=usize::MAX)?,
    };
    let seen = read(&day_by(given, days, names)?, &question)?;
    put(given, if given.has(&JSON) { seen.json() } else { seen.text() }.as_bytes())?;
    Ok(if seen.refused() { Ended::Badly } else { Ended::Well })
}
