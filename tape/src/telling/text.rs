//! The facts as sentences: a line for each instruction, and below it what it did.

use crate::block::{put, Block, Piece, Text};
use crate::dealt::{Rounds, Turn};
use crate::facts::{Fact, Told};
use crate::input::Stands;
use crate::known::Known;
use crate::ledger::Step;
use crate::measure::{counted, Face, Grouped, Lots, Price, Rate};
use crate::units::Case;
use settlement_day::Instruction;
use std::fmt::Display;
use std::io::{self, Write};

/// Tells a fact of an instruction that stands there.
pub fn tell(out: &mut Block, told: &Told, stands: Stands) -> io::Result<()> {
    let Told { day, word, fact, known, .. } = *told;
    match fact {
        Fact::Day { day, turn } => writeln!(out, "Day {}", day_text(*day, *turn, known)),
        Fact::Instruction { instruction, refusal } => {
            if stands.file.is_some() {
                said_at(out, word, stands, instruction, known)?;
            } else {
                out.line(|line| said_at(line, word, stands, instruction, known))?;
            }
            match refusal {
                Some((_, why)) => put!(out, ": ", why.as_str(), "\n"),
                None => "\n".put(out),
            }
        }
        Fact::ReadingEnds { refusal, why } => {
            head(out, word, stands)?;
            writeln!(out, ": reading ends, refused by {}: {why}", refusal.number())
        }
        Fact::End { phase, entries, charged } => {
            writeln!(out, "\nAt the end: day {}, {phase}", known.day(day))?;
            let ies = if *entries == 1 { "y" } else { "ies" };
            let charged = counted(*charged, "account");
            write!(out, "  the whole book has {entries} fail entr{ies} in the ledger ")?;
            writeln!(out, "and {charged} with charges")
        }
        _ => {
            "      ".put(out)?;
            detail(out, fact, known)?;
            "\n".put(out)
        }
    }
}

/// An instruction behind where it stands. A tape may have a million.
#[inline(always)]
fn said_at(
    out: &mut impl Text,
    word: Option<usize>,
    stands: Stands,
    instruction: &Instruction,
    known: &Known,
) -> io::Result<()> {
    head(out, word, stands)?;
    ": ".put(out)?;
    sentence(out, instruction, known)
}

/// The beginning of an instruction's line: its first word, and where it stands.
#[inline(always)]
fn head(out: &mut impl Text, word: Option<usize>, stands: Stands) -> io::Result<()> {
    put!(out, "  word ", word.unwrap_or_default() as u64)?;
    if stands.file.is_none() && stands.line.is_none() {
        return Ok(());
    }
    ",".put(out)?;
    if let Some(file) = stands.file {
        put!(out, " ", file)?;
    }
    match stands.line {
        Some(number) => put!(out, " line ", number as u64),
        None => Ok(()),
    }
}

/// What an instruction says, as a text.
pub fn said(instruction: &Instruction, known: &Known) -> String {
    let mut text = Vec::new();
    // A write to memory does not fail.
    let _ = sentence(&mut text, instruction, known);
    String::from_utf8_lossy(&text).to_string()
}

/// Something that an instruction did, as a text.
pub fn told(fact: &Fact, known: &Known) -> String {
    let mut text = Vec::new();
    let _ = detail(&mut text, fact, known);
    String::from_utf8_lossy(&text).to_string()
}

/// What an instruction says.
#[inline(always)]
fn sentence(out: &mut impl Text, instruction: &Instruction, known: &Known) -> io::Result<()> {
    match *instruction {
        Instruction::Trade { issue, from, to, lots } => {
            let (issue, lots) = (known.issue(issue), Face(lots.into()));
            let (from, to) = (known.account(from), known.account(to));
            put!(
                out,
                "trade: account ",
                from,
                " sells account ",
                to,
                " ",
                lots,
                " of issue ",
                issue
            )
        }
        Instruction::Deliver { issue, account, lots } => {
            let (issue, account) = (known.issue(issue), known.account(account));
            let lots = Face(lots.into());
            put!(out, "deliver: account ", account, " delivers ", lots, " of issue ", issue)
        }
        Instruction::Resolve { issue, account, lots } => {
            let (issue, account) = (known.issue(issue), known.account(account));
            let lots = Face(lots.into());
            put!(out, "resolve: account ", account, " hands over ", lots, " of issue ", issue)
        }
        Instruction::PairOff { issue, account } => {
            let (issue, account) = (known.issue(issue), known.account(account));
            write!(out, "pair-off: fails to and from account {account} in issue {issue}")
        }
        Instruction::Mark { issue, mark } => {
            write!(out, "mark: issue {} in multiples of {}", known.issue(issue), multiples(mark))
        }
        Instruction::Turn { day } => {
            write!(out, "turn: full units dealt in turn from day {} on", known.day(day))
        }
        Instruction::Close => write!(out, "close"),
        Instruction::Cutoff => write!(out, "cutoff"),
        Instruction::Roll { days, rate } => {
            write!(out, "roll: {} at {}", days_text(days), Rate(rate))
        }
    }
}

/// The multiples of a mark.
fn multiples(mark: u32) -> &'static str {
    match mark {
        0 => "50,000 yen face, any lots",
        _ => "100,000 yen face, even lots only",
    }
}

/// Something that an instruction did, or that stands in the book at the end.
fn detail(out: &mut impl Text, fact: &Fact, known: &Known) -> io::Result<()> {
    match fact {
        Fact::ChangeOver { turn } => {
            write!(out, "full units are dealt in turn from day {} on", known.day(*turn))
        }
        Fact::Marked { issue } => {
            write!(out, "issue {} is in multiples of {}", known.issue(*issue), multiples(1))
        }
        Fact::Units { .. } | Fact::Rounds { .. } | Fact::Owes { .. } => order(out, fact, known),
        Fact::Tie { .. } | Fact::SmallAfterFull { .. } => decided(out, fact, known),
        Fact::Handed { .. } | Fact::Waits { .. } | Fact::Partly { .. } => {
            handover(out, fact, known)
        }
        Fact::Charge { .. } | Fact::Charged { .. } => charge(out, fact, known),
        _ => fail(out, fact, known),
    }
}

/// The units in their order, and what is owed.
fn order(out: &mut impl Text, fact: &Fact, known: &Known) -> io::Result<()> {
    match fact {
        Fact::Units { issue, first, last, account, lots, due } => {
            let (issue, account) = (known.issue(*issue), known.account(*account));
            let (units, lots) = (Units::of(*first, *last), Lots((*lots).into()));
            put!(out, "issue ", issue, ": ", units, units.is(), "account ", account, "'s, ", lots)?;
            put!(out, units.each(), ", of ", Lots((*due).into()), " due")
        }
        Fact::Rounds { issue, rounds } => {
            write!(out, "issue {}: ", known.issue(*issue))?;
            rounds_text(out, rounds, known)
        }
        Fact::Owes { issue, account, lots } => {
            let (issue, account) = (known.issue(*issue), known.account(*account));
            put!(out, "account ", account)?;
            match lots {
                0 => " owes nothing more".put(out)?,
                lots => put!(out, " still owes ", Lots(*lots))?,
            }
            put!(out, " of issue ", issue, " today")
        }
        _ => Ok(()),
    }
}

/// Units dealt in turn: their rounds, and the accounts that take part in each.
fn rounds_text(out: &mut impl Text, rounds: &Rounds, known: &Known) -> io::Result<()> {
    let Rounds { first, last, round, until, accounts } = rounds;
    let units = Units::of(*first, *last);
    put!(out, units, units.is())?;
    if round == until {
        write!(out, "round {round}: one full unit ")?;
    } else {
        write!(out, "rounds {round} to {until}: in each one full unit ")?;
    }
    match accounts.len() {
        1 => write!(out, "to account {}", known.accounts(accounts)),
        _ => write!(out, "each to accounts {}, in this order", known.accounts(accounts)),
    }
}

/// Which case of the rule decided between close neighbours.
fn decided(out: &mut impl Text, fact: &Fact, known: &Known) -> io::Result<()> {
    match fact {
        Fact::Tie { issue, case, lots, accounts } => {
            let full = *case == Case::BothFull;
            let what = if full { "have the same net" } else { "have small units of the same size" };
            let (issue, names) = (known.issue(*issue), known.accounts(accounts));
            let lots = Lots((*lots).into());
            write!(out, "issue {issue}: accounts {names} {what}, {lots}: ")?;
            write!(out, "the lower number is first ({})", case.name())
        }
        Fact::SmallAfterFull { issue, unit, account, next, follower } => {
            let (issue, account) = (known.issue(*issue), known.account(*account));
            let follower = known.account(*follower);
            write!(out, "issue {issue}: unit {unit} of account {account} is full, ")?;
            write!(out, "unit {next} of account {follower} is small: ")?;
            write!(out, "the full one is first ({})", Case::FullAndSmall.name())
        }
        _ => Ok(()),
    }
}

/// Units handed over, whole and in part, and stock that waits.
fn handover(out: &mut impl Text, fact: &Fact, known: &Known) -> io::Result<()> {
    match fact {
        Fact::Handed { first, last, account, lots, turn, .. } => {
            let (units, lots) = (Units::of(*first, *last), Face((*lots).into()));
            let account = known.account(*account);
            put!(out, units, units.is(), "handed to account ", account, ": ", lots, units.each())?;
            dealt(out, turn)
        }
        Fact::Waits { stock, unit, account, lots, turn, .. } => {
            let wait = if *stock == 1 { " waits" } else { " wait" };
            let (unit, account) = (u64::from(*unit), known.account(*account));
            put!(out, Lots(*stock), wait, " for unit ", unit, " of account ", account, ", ")?;
            Lots((*lots).into()).put(out)?;
            dealt(out, turn)
        }
        Fact::Partly { issue, unit, account, lots, lacks } => {
            let go = if *lots == 1 { "goes" } else { "go" };
            let (lots, lacks) = (Lots((*lots).into()), Lots((*lacks).into()));
            let (issue, account) = (known.issue(*issue), known.account(*account));
            write!(
                out,
                "issue {issue}: the remaining {lots} {go} to unit {unit} of account {account}"
            )?;
            write!(out, ", which still lacks {lacks} (a partial fail)")
        }
        _ => Ok(()),
    }
}

/// Fails as they arise, are met and stand in the ledger.
fn fail(out: &mut impl Text, fact: &Fact, known: &Known) -> io::Result<()> {
    match fact {
        Fact::Fails { issue, from, to, lots, first, last, units } => {
            let (lots, units) = (Face((*lots).into()), failed_units(*first, *last, *units));
            let (from, to) = (known.account(*from), known.account(*to));
            let issue = known.issue(*issue);
            put!(out, "issue ", issue, ": account ", from, " fails account ", to, ": ", lots)?;
            put!(out, ", of ", units.as_str())
        }
        Fact::NothingFails => write!(out, "nothing fails"),
        Fact::Resolved { from, to, lots, .. } => {
            let (from, to) = (known.account(*from), known.account(*to));
            put!(out, "account ", from, " hands to account ", to, ": ", Face((*lots).into()))
        }
        Fact::Paired { steps, cancelled, .. } => {
            write!(out, "{}, {} cancelled", counted(*steps, "step"), Lots(*cancelled))
        }
        Fact::Met { account, step, .. } => met(out, *account, step, known),
        Fact::Left { issue, from, to, lots, since } => {
            write!(out, "in the ledger: ")?;
            entry(out, &[*issue, *from, *to, *lots], *since, known)
        }
        Fact::Entry { issue, from, to, lots, since } => {
            entry(out, &[*issue, *from, *to, *lots], *since, known)
        }
        _ => Ok(()),
    }
}

/// A step of an account's pair-off: the entries that meet, and what comes of it.
fn met(out: &mut impl Text, account: u32, step: &Step, known: &Known) -> io::Result<()> {
    let Step { from, from_since, to, to_since, lots } = *step;
    let (from_since, to_since) = (known.day(from_since), known.day(to_since));
    let (account, face) = (known.account(account), Face(lots.into()));
    let (from, to) = (known.account(from), known.account(to));
    write!(out, "the fail of account {from} to account {account} since day {from_since} meets ")?;
    write!(out, "that of account {account} to account {to} since day {to_since}: {face}; ")?;
    if step.falls_away() {
        return write!(out, "they fall away");
    }
    write!(out, "account {from} now owes them to account {to}")
}

/// An account's charges; or one charge, with the value, the price, accrued interest, the rate and the
/// days behind it.
fn charge(out: &mut impl Text, fact: &Fact, known: &Known) -> io::Result<()> {
    if let Fact::Charged { account, yen } = fact {
        return write!(out, "account {}: {} yen", known.account(*account), Grouped((*yen).into()));
    }
    let Fact::Charge { terms, from, to, lots, value, yen } = fact else { return Ok(()) };
    let (yen, value) = (Grouped((*yen).into()), Grouped((*value).into()));
    let (issue, lots) = (known.issue(terms.issue), Lots((*lots).into()));
    let (from, to) = (known.account(*from), known.account(*to));
    write!(out, "account {from} is charged {yen} yen for {lots} of issue {issue}, ")?;
    let (price, accrued) = (Price(terms.price), Price(terms.accrued));
    write!(out, "which account {to} is given: value {value} yen at {price}, accrued {accrued}, ")?;
    write!(out, "{} at {}", days_text(terms.days), Rate(terms.rate))
}

/// A fail entry of the ledger.
fn entry(out: &mut impl Text, numbers: &[u32; 4], since: u16, known: &Known) -> io::Result<()> {
    let [issue, from, to, lots] = *numbers;
    let (issue, lots, since) = (known.issue(issue), Face(lots.into()), known.day(since));
    let (from, to) = (known.account(from), known.account(to));
    put!(out, "issue ", issue, ": account ", from, " owes account ", to, " ", lots)?;
    write!(out, ", since day {since}")
}

/// A day, and its order where a change-over day is named.
fn day_text(day: u16, turn: u32, known: &Known) -> String {
    let (today, from) = (known.day(day), known.day(turn));
    match turn {
        0 => today.to_string(),
        turn if turn <= day.into() => {
            format!("{today}, the new order: full units are dealt in turn since day {from}")
        }
        _ => format!("{today}, the old order: full units are dealt in turn from day {from} on"),
    }
}

/// Where a unit stands that was dealt in turn.
fn dealt(out: &mut impl Text, turn: &Option<Turn>) -> io::Result<()> {
    turn.map_or(Ok(()), |turn| put!(out, ", ", turn.words().as_str()))
}

/// The units of a fail: those from the first to the last, or so many of them that lie apart.
pub fn failed_units(first: u32, last: u32, units: u32) -> String {
    match units {
        _ if last + 1 - first == units => Units::of(first, last).alone(),
        2 => format!("units {first} and {last}"),
        units => format!("{units} units from {first} to {last} that lie apart"),
    }
}

/// Units from the first to the last.
#[derive(Clone, Copy)]
struct Units {
    first: u32,
    last: u32,
}

impl Units {
    fn of(first: u32, last: u32) -> Units {
        Units { first, last }
    }

    /// The verb that follows them.
    fn is(self) -> &'static str {
        if self.first == self.last {
            " is "
        } else {
            " are "
        }
    }

    /// What follows the lots of one of them.
    fn each(self) -> &'static str {
        if self.first == self.last {
            ""
        } else {
            " each"
        }
    }
}

impl Piece for Units {
    #[inline]
    fn put(&self, out: &mut impl Text) -> io::Result<()> {
        if self.first == self.last {
            return put!(out, "unit ", u64::from(self.first));
        }
        put!(out, "units ", u64::from(self.first), " to ", u64::from(self.last))
    }
}

/// Days with their measure.
pub fn days_text(days: u32) -> String {
    format!("{days} day{}", if days == 1 { "" } else { "s" })
}

/// Numbers or names with commas and a last 'and' between them.
pub fn listed<T: Display>(things: &[T]) -> String {
    let names: Vec<String> = things.iter().map(T::to_string).collect();
    match names.split_last() {
        Some((last, before)) if !before.is_empty() => format!("{} and {last}", before.join(", ")),
        _ => names.join(""),
    }
}

#[cfg(test)]
mod tests {
    use super::*;
    use crate::names::{Names, MOST_LETTERS};

    /// A fact of the instruction at a word.
    fn of<'a>(word: usize, fact: &'a Fact, known: &'a Known) -> Told<'a> {
        Told { day: 0, word: Some(word), stands: Stands::default(), fact, known }
    }

    /// A fact as it is told.
    fn text_of(told: &Told, stands: Stands) -> String {
        let mut text = Vec::new();
        tell(&mut Block::before(&mut text), told, stands).unwrap();
        String::from_utf8(text).unwrap()
    }

    #[test]
    fn a_trade_is_told_with_the_longest_names() {
        let long = "\u{20000}".repeat(MOST_LETTERS);
        let names =
            Names::parse(&format!("issue 15 {long}i\naccount 63 {long}a\naccount 0 {long}b"));
        assert!(names.is_err(), "a name is too long");
        let names = format!("issue 15 {long}\naccount 63 A{}", &long[4..]);
        let known = Known::of(&Names::parse(&names).unwrap());
        for (lots, measured) in
            [(0, "0 lots (0"), (1, "1 lot (50,000"), (u32::MAX, "4,294,967,295 lots")]
        {
            let instruction = Instruction::Trade { issue: 15, from: 63, to: 63, lots };
            let fact = Fact::Instruction { instruction, refusal: None };
            let line = Some(usize::MAX);
            let told = of(usize::MAX, &fact, &known);
            let text = text_of(&told, Stands { file: None, line, column: None });
            let said = said(&instruction, &known);
            assert!(said.contains(measured), "{said}");
            assert_eq!(text, format!("  word {0}, line {0}: {said}\n", usize::MAX));
        }
    }

    #[test]
    fn an_instruction_is_named_by_its_word_file_and_line() {
        let fact = Fact::Instruction { instruction: Instruction::Close, refusal: None };
        let known = Known::default();
        let told = of(7, &fact, &known);
        let at = |file, line| text_of(&told, Stands { file, line, column: line });
        assert_eq!(at(None, None), "  word 7: close\n");
        assert_eq!(at(None, Some(9)), "  word 7, line 9: close\n");
        assert_eq!(at(Some("tue.txt"), Some(9)), "  word 7, tue.txt line 9: close\n");
        assert_eq!(at(Some("tue.tape"), None), "  word 7, tue.tape: close\n");
    }
}
