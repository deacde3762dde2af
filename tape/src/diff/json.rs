//! The differences as JSON: one object a line, `fact` "diff" and what it is `of`, then `day` where it is of
//! one. What is of both tapes stands in `a` and `b`. docs/JSON.md lists them.

use super::found::Difference;
use super::order::Parting;
use super::side::{Line, Refused};
use super::sums::{Amount, Of};
use crate::json::{Name, Object};
use crate::known::Known;
use crate::telling::json::{arguments, refused};
use crate::whole::Whole;
use settlement_day::Instruction;
use std::io::{self, Write};

/// The name of every difference.
const FACT: &str = "diff";
/// The two tapes as fields.
const NAMES: [&str; 2] = ["a", "b"];

/// Which tape is which.
pub fn head(out: &mut impl Write, days: [&Whole; 2]) -> io::Result<()> {
    let mut object = Object::fact(out, FACT);
    object.field("of", Name("tapes"));
    for (name, day) in NAMES.iter().zip(days) {
        object.field(name, day.day().files().join(", ").as_str());
    }
    object.end()
}

/// Tells a difference of a day, or of the book at the end.
pub fn tell(
    out: &mut impl Write,
    days: [&Whole; 2],
    known: &Known,
    day: Option<u16>,
    found: &Difference,
) -> io::Result<()> {
    let mut object = Object::fact(out, FACT).by(known);
    object.field("of", Name(name(found))).optional("day", day);
    match found {
        Difference::Same { first, last } => {
            object.field("day", *first).field("last", *last);
        }
        Difference::Alone { side, first, last, count, word } => {
            object.field("day", *first).field("last", *last).field("in", Name(NAMES[*side]));
            place(&mut object, days[*side], *word);
            object.field("count", *count);
        }
        Difference::Edited { only, moved, changed, .. } => {
            object.field("a", only[0]).field("b", only[1]);
            object.field("moved", *moved).field("changed", *changed);
        }
        Difference::Sum { of, amounts } => sum(&mut object, of, amounts),
        Difference::Order { issue, parting } => order(&mut object, *issue, parting),
        Difference::BooksSame | Difference::Ledger => {}
        found => instruction(&mut object, days, found),
    }
    object.end()
}

/// The name of a difference.
fn name(found: &Difference) -> &'static str {
    match found {
        Difference::Same { .. } => "same",
        Difference::Edited { .. } => "day",
        Difference::Unordered { .. } => "unordered",
        Difference::Only { .. } => "only",
        Difference::Moved { .. } => "moved",
        Difference::Changed { .. } => "changed",
        Difference::Refused { .. } => "refused",
        Difference::Order { .. } => "order",
        Difference::Sum { of, .. } => name_of(of),
        Difference::BooksSame => "books-same",
        Difference::Alone { .. } => "alone",
        Difference::End { .. } => "end",
        Difference::ReadingEnds { .. } => "reading-ends",
        Difference::Ledger => "ledger",
    }
}

/// The name of a sum.
fn name_of(of: &Of) -> &'static str {
    match of {
        Of::Handed { .. } => "handed",
        Of::Fails { .. } => "fails",
        Of::Resolved { .. } => "resolved",
        Of::Paired { .. } => "paired",
        Of::Charge { .. } => "charge",
        Of::ChangeOver => "change-over",
        Of::Marked { .. } => "marked",
        Of::Net { .. } => "net",
        Of::Delivered { .. } => "delivered",
        Of::Entry { .. } => "entry",
        Of::Charged { .. } => "charged",
    }
}

/// Instructions and where they stand, and the book at the end.
fn instruction<W: Write>(object: &mut Object<'_, W>, days: [&Whole; 2], found: &Difference) {
    match found {
        Difference::Unordered { words } => {
            both(object, |one, side| place(one, days[side], words[side]));
        }
        Difference::Only { side, line, count } => {
            object.field("in", Name(NAMES[*side]));
            place(object, days[*side], line.word);
            object.field("count", *count);
            call(object, &line.instruction);
        }
        Difference::Moved { words, instruction, count } => {
            object.field("count", *count);
            call(object, instruction);
            both(object, |one, side| place(one, days[side], words[side]));
        }
        Difference::Changed { lines, quoted } => {
            object.field("call", Name(lines[0].instruction.name()));
            both(object, |one, side| {
                place(one, days[side], lines[side].word);
                arguments(one, &lines[side].instruction);
            });
            object.field("quoted", quoted);
        }
        Difference::Refused { lines, refused, count } => {
            object.field("count", *count);
            call(object, &lines[0].instruction);
            both(object, |one, side| judged(one, days[side], &lines[side], refused[side]));
        }
        Difference::End { books } => both(object, |one, side| {
            let (day, phase) = books[side];
            one.field("day", day).field("phase", Name(phase));
        }),
        Difference::ReadingEnds { ends } => both(object, |one, side| {
            if let Some(ends) = ends[side] {
                place(one, days[side], ends.word);
                refused(one, ends.refusal, &ends.why);
            }
        }),
        _ => {}
    }
}

/// A field of each tape that is an object: what `inside` writes of it.
fn both<W: Write>(object: &mut Object<'_, W>, inside: impl Fn(&mut Object<'_, W>, usize)) {
    for (side, name) in NAMES.iter().enumerate() {
        object.object(name, |one| inside(one, side));
    }
}

/// Where an instruction stands.
fn place(object: &mut Object<'_, impl Write>, day: &Whole, word: usize) {
    object.field("word", word).optional("line", day.stands(word).line);
}

/// The call of an instruction and its numbers.
fn call(object: &mut Object<'_, impl Write>, instruction: &Instruction) {
    object.field("call", Name(instruction.name()));
    arguments(object, instruction);
}

/// What became of an instruction in a tape.
fn judged(object: &mut Object<'_, impl Write>, day: &Whole, line: &Line, found: Option<&Refused>) {
    place(object, day, line.word);
    match found {
        None => {
            object.field("refusal", 0_u32);
        }
        Some(Refused { refusal, why, .. }) => refused(object, *refusal, why),
    }
}

/// Where the orders of an issue's units part.
fn order<W: Write>(object: &mut Object<'_, W>, issue: u32, parting: &Parting) {
    object.issue(issue).field("unit", parting.unit);
    both(object, |one, side| {
        if let Some(unit) = parting.units[side] {
            one.account("account", unit.account).field("lots", unit.lots);
        }
        let (accounts, units): (Vec<u32>, Vec<u32>) =
            parting.receivers[side].accounts.iter().copied().unzip();
        one.field("accounts", accounts).field("units", units);
        one.field("more", parting.receivers[side].more);
    });
}

/// A sum that differs: what it is of, and its amounts.
fn sum<W: Write>(object: &mut Object<'_, W>, of: &Of, amounts: &[Amount; 2]) {
    whose(object, of);
    if let Of::Handed { .. } = of {
        return both(object, |one, side| {
            let Amount { units, number } = amounts[side];
            one.field("units", units).field("lots", number.unsigned_abs());
        });
    }
    for (name, amount) in NAMES.iter().zip(amounts) {
        object.field(name, amount.number);
    }
}

/// What a sum is of.
fn whose(object: &mut Object<'_, impl Write>, of: &Of) {
    match *of {
        Of::Handed { issue, account }
        | Of::Paired { issue, account }
        | Of::Net { issue, account }
        | Of::Delivered { issue, account } => {
            object.issue(issue).account("account", account);
        }
        Of::Fails { issue, from, to } | Of::Resolved { issue, from, to } => {
            object.issue(issue).account("from", from).account("to", to);
        }
        Of::Entry { issue, from, to, since } => {
            object.issue(issue).account("from", from).account("to", to).field("since", since);
        }
        Of::Charge { account } | Of::Charged { account } => {
            object.account("account", account);
        }
        Of::Marked { issue } => {
            object.issue(issue);
        }
        Of::ChangeOver => {}
    }
}
