//! The facts as JSON: one object a line, with `fact` and `day` behind the version, then the instruction
//! that the fact belongs to. docs/JSON.md lists them.

use crate::dealt::Turn;
use crate::facts::{Fact, Told};
use crate::input::Stands;
use crate::json::{Name, Object};
use crate::ledger::Step;
use crate::units::Case;
use settlement_day::{Instruction, Refusal};
use std::io::{self, Write};

/// Tells a fact of an instruction that stands there, without the column.
pub fn tell(out: &mut impl Write, told: &Told, stands: Stands) -> io::Result<()> {
    tell_at(out, told, Stands { column: None, ..stands })
}

/// Tells a fact of an instruction that stands there.
pub fn tell_at(out: &mut impl Write, told: &Told, stands: Stands) -> io::Result<()> {
    let mut object = Object::fact(out, name(told.fact)).by(told.known);
    object.day(told.day).optional("word", told.word).optional("line", stands.line);
    object.optional("column", stands.column).optional("file", stands.file);
    fields(&mut object, told.fact);
    object.end()
}

/// The name of a fact.
pub(crate) fn name(fact: &Fact) -> &'static str {
    match fact {
        Fact::Day { .. } => "day",
        Fact::Instruction { .. } => "instruction",
        Fact::Units { .. } => "units",
        Fact::Rounds { .. } => "rounds",
        Fact::Tie { .. } => "tie",
        Fact::SmallAfterFull { .. } => "small-after-full",
        Fact::Owes { .. } => "owes",
        Fact::Handed { .. } => "handed",
        Fact::Waits { .. } => "waits",
        Fact::Partly { .. } => "partly",
        Fact::Fails { .. } => "fails",
        Fact::NothingFails => "nothing-fails",
        Fact::Resolved { .. } => "resolved",
        Fact::Paired { .. } => "paired",
        Fact::Met { .. } => "met",
        Fact::Left { .. } => "left",
        Fact::Charge { .. } => "charge",
        Fact::ReadingEnds { .. } => "reading-ends",
        Fact::End { .. } => "end",
        Fact::ChangeOver { .. } => "change-over",
        Fact::Marked { .. } => "marked",
        Fact::Entry { .. } => "entry",
        Fact::Charged { .. } => "charged",
    }
}

/// Where units stand that were dealt in turn.
fn dealt(object: &mut Object<'_, impl Write>, turn: &Option<Turn>) {
    if let Some(Turn { round, until, receiver, of }) = *turn {
        object.field("round", round).field("until", until);
        object.field("receiver", receiver).field("of", of);
    }
}

/// A refusal's number and what it says.
pub fn refused(object: &mut Object<'_, impl Write>, refusal: Refusal, why: &str) {
    object.field("refusal", refusal.number()).field("why", why);
}

/// The fields of a fact after its instruction.
fn fields(object: &mut Object<'_, impl Write>, fact: &Fact) {
    match fact {
        Fact::Instruction { .. } | Fact::ReadingEnds { .. } => instruction(object, fact),
        Fact::Day { day, turn } => {
            let new = *turn != 0 && *turn <= u32::from(*day);
            object.field("order", Name(if new { "new" } else { "old" })).field("turn", *turn);
        }
        Fact::ChangeOver { turn } => {
            object.field("turn", *turn);
        }
        Fact::Units { .. } | Fact::Rounds { .. } | Fact::Owes { .. } => order(object, fact),
        Fact::Tie { .. } | Fact::SmallAfterFull { .. } => decided(object, fact),
        Fact::Handed { .. } | Fact::Waits { .. } | Fact::Partly { .. } => handover(object, fact),
        Fact::Charge { .. } | Fact::Charged { .. } | Fact::End { .. } => charge(object, fact),
        Fact::Marked { issue } => {
            object.issue(*issue);
        }
        _ => fail(object, fact),
    }
}

/// An instruction with its numbers and its refusal, or where reading ends.
fn instruction(object: &mut Object<'_, impl Write>, fact: &Fact) {
    match fact {
        Fact::Instruction { instruction, refusal } => {
            object.field("call", Name(instruction.name()));
            arguments(object, instruction);
            match refusal {
                Some((refusal, why)) => refused(object, *refusal, why),
                None => {
                    object.field("refusal", 0_u32);
                }
            }
        }
        Fact::ReadingEnds { refusal, why } => refused(object, *refusal, why),
        _ => {}
    }
}

/// The units in their order, and what is owed.
fn order(object: &mut Object<'_, impl Write>, fact: &Fact) {
    match fact {
        Fact::Units { issue, first, last, account, lots, due } => {
            units(object, [*issue, *first, *last, *account, *lots]);
            object.field("due", *due);
        }
        Fact::Rounds { issue, rounds } => {
            object.issue(*issue).field("first", rounds.first).field("last", rounds.last);
            object.field("round", rounds.round).field("until", rounds.until);
            object.field("accounts", &rounds.accounts);
        }
        Fact::Owes { issue, account, lots } => {
            object.issue(*issue).account("account", *account).field("lots", *lots);
        }
        _ => {}
    }
}

/// Which case of the rule decided between close neighbours.
fn decided(object: &mut Object<'_, impl Write>, fact: &Fact) {
    match fact {
        Fact::Tie { issue, case, lots, accounts } => {
            let of = if *case == Case::BothFull { "nets" } else { "small units" };
            object.issue(*issue).field("case", Name(case.name())).field("of", Name(of));
            object.field("lots", *lots).field("accounts", accounts);
        }
        Fact::SmallAfterFull { issue, unit, account, next, follower } => {
            object.issue(*issue).field("case", Name(Case::FullAndSmall.name()));
            object.field("unit", *unit).account("account", *account);
            object.field("next", *next).field("follower", *follower);
        }
        _ => {}
    }
}

/// Units handed over, whole and in part, and stock that waits.
fn handover(object: &mut Object<'_, impl Write>, fact: &Fact) {
    match fact {
        Fact::Handed { issue, first, last, account, lots, turn } => {
            units(object, [*issue, *first, *last, *account, *lots]);
            dealt(object, turn);
        }
        Fact::Waits { issue, stock, unit, account, lots, turn } => {
            object.issue(*issue).field("stock", *stock).field("unit", *unit);
            object.account("account", *account).field("lots", *lots);
            dealt(object, turn);
        }
        Fact::Partly { issue, unit, account, lots, lacks } => {
            object.issue(*issue).field("unit", *unit).account("account", *account);
            object.field("lots", *lots).field("lacks", *lacks);
        }
        _ => {}
    }
}

/// Fails as they arise, are met and stand in the ledger.
fn fail(object: &mut Object<'_, impl Write>, fact: &Fact) {
    match fact {
        Fact::Fails { issue, from, to, lots, first, last, units } => {
            owed(object, [*issue, *from, *to, *lots]);
            object.field("first", *first).field("last", *last).field("units", *units);
        }
        Fact::Resolved { issue, from, to, lots } => owed(object, [*issue, *from, *to, *lots]),
        Fact::Left { issue, from, to, lots, since }
        | Fact::Entry { issue, from, to, lots, since } => {
            owed(object, [*issue, *from, *to, *lots]);
            object.field("since", *since);
        }
        Fact::Paired { issue, account, steps, cancelled } => {
            object.issue(*issue).account("account", *account);
            object.field("steps", *steps).field("cancelled", *cancelled);
        }
        Fact::Met { issue, account, step: Step { from, from_since, to, to_since, lots } } => {
            object.issue(*issue).account("account", *account);
            object.account("from", *from).field("fromSince", *from_since);
            object.account("to", *to).field("toSince", *to_since).field("lots", *lots);
        }
        _ => {}
    }
}

/// Charges, and the book at the end.
fn charge(object: &mut Object<'_, impl Write>, fact: &Fact) {
    match fact {
        Fact::Charge { terms, from, to, lots, value, yen } => {
            owed(object, [terms.issue, *from, *to, *lots]);
            object.field("price", terms.price).field("accrued", terms.accrued);
            object.field("value", *value).field("days", terms.days).field("rate", terms.rate);
            object.field("yen", *yen);
        }
        Fact::Charged { account, yen } => {
            object.account("account", *account).field("yen", *yen);
        }
        Fact::End { phase, entries, charged } => {
            object.field("phase", Name(*phase)).field("entries", *entries);
            object.field("charged", *charged);
        }
        _ => {}
    }
}

/// Units of an issue from the first to the last, alike.
fn units(object: &mut Object<'_, impl Write>, numbers: [u32; 5]) {
    let [issue, first, last, account, lots] = numbers;
    object.issue(issue).field("first", first).field("last", last);
    object.account("account", account).field("lots", lots);
}

/// Lots that one account owes or hands to another.
fn owed(object: &mut Object<'_, impl Write>, [issue, from, to, lots]: [u32; 4]) {
    object.issue(issue).account("from", from).account("to", to).field("lots", lots);
}

/// The numbers of an instruction.
pub fn arguments(object: &mut Object<'_, impl Write>, instruction: &Instruction) {
    match *instruction {
        Instruction::Trade { issue, from, to, lots } => owed(object, [issue, from, to, lots]),
        Instruction::Deliver { issue, account, lots }
        | Instruction::Resolve { issue, account, lots } => {
            object.issue(issue).account("account", account).field("lots", lots);
        }
        Instruction::PairOff { issue, account } => {
            object.issue(issue).account("account", account);
        }
        Instruction::Mark { issue, mark } => {
            object.issue(issue).field("mark", mark);
        }
        Instruction::Roll { days, rate } => {
            object.field("days", days).field("rate", rate);
        }
        Instruction::Turn { day } => {
            object.field("turn", day);
        }
        Instruction::Close | Instruction::Cutoff => {}
    }
}
