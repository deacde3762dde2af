//! Answers as JSON: one object a line, with the line's number and `answer` behind the version. docs/JSON.md
//! lists them.

use crate::answer::{Answer, Done, State};
use crate::call::{Call, Record, FAILED, RESOLVED};
use crate::orders::Like;
use settlement_day::calls::Unit;
use settlement_day::{Entry, Instruction, Ticket};
use std::io::Write;
use tape::fault::Fault;
use tape::json::{self, Name, Object};
use tape::status::tell_status;

/// The line of an answer to the line of a number.
pub fn line(answer: &Answer, number: usize) -> String {
    json::line(|object| {
        object.field("line", number).field("answer", Name(name(answer)));
        fields(object, answer);
    })
}

/// The name of an answer.
fn name(answer: &Answer) -> &'static str {
    match answer {
        Answer::Done(_) => "done",
        Answer::Refused { .. } => "refused",
        Answer::NotDone { .. } => "not done",
        Answer::Wrong(_) => "wrong",
        Answer::Nothing(_) => "nothing",
        Answer::Ticket(_) => "ticket",
        Answer::Unit { .. } => "unit",
        Answer::Why { .. } => "why",
        Answer::Order { .. } => "order",
        Answer::Ledger(_) => "ledger",
        Answer::Charges(_) => "charges",
        Answer::Status(_) => "status",
        Answer::Help => "help",
    }
}

/// The fields of an answer behind its name.
fn fields(object: &mut Object<'_, impl Write>, answer: &Answer) {
    match answer {
        Answer::Done(found) => done(object, found),
        Answer::Refused { said, refusal, why } => {
            object.field("said", said.as_str()).field("refusal", refusal.number());
            object.field("why", why.as_str());
        }
        Answer::NotDone { said, why } => {
            object.field("said", said.as_str()).field("why", why.as_str());
        }
        Answer::Wrong(faults) => {
            object.objects("faults", faults, fault);
        }
        Answer::Nothing(why) => {
            object.field("why", why.as_str());
        }
        Answer::Help => {
            object.field("help", crate::line::HELP);
        }
        Answer::Status(state) => status(object, state),
        Answer::Ledger(entries) => {
            object.objects("entries", entries, entry);
        }
        Answer::Charges(charges) => {
            object.objects("charges", charges, |one, &(account, yen)| {
                one.account("account", account).field("yen", yen);
            });
        }
        Answer::Ticket(_) | Answer::Unit { .. } | Answer::Why { .. } | Answer::Order { .. } => {
            of_units(object, answer);
        }
    }
}

/// The fields of an answer about units.
fn of_units(object: &mut Object<'_, impl Write>, answer: &Answer) {
    match answer {
        Answer::Ticket(found) => ticket(object, found),
        Answer::Unit { issue, unit, found: Some(found) } => {
            object.issue(*issue).field("unit", *unit);
            whose(object, found);
        }
        Answer::Unit { issue, unit, found: None } => {
            object.issue(*issue).field("unit", *unit);
            object.field("account", None::<u32>).field("lots", None::<u32>);
        }
        Answer::Why { issue, unit, found, status } => {
            object.issue(*issue).field("unit", *unit);
            whose(object, found);
            tell_status(object, status, found.lots);
        }
        Answer::Order { issue, units } => {
            object.issue(*issue).objects("units", units, like);
        }
        _ => {}
    }
}

/// Whose a unit is, and its lots.
fn whose(object: &mut Object<'_, impl Write>, unit: &Unit) {
    object.account("account", unit.account).field("lots", unit.lots);
}

/// What a call did.
fn done(object: &mut Object<'_, impl Write>, done: &Done) {
    object.field("call", Name(done.call.name())).field("said", done.call.line().as_str());
    match &done.call {
        Call::Tape { instruction: Instruction::PairOff { .. }, .. } => {
            object.field("steps", done.count).field("cancelled", done.cancelled);
        }
        _ => {
            object.objects("records", &done.records, record);
        }
    }
    object.day(done.day).field("phase", Name(done.phase));
    object.optional("note", done.note.as_deref());
}

/// A record that a call wrote.
fn record(object: &mut Object<'_, impl Write>, record: &Record) {
    let Record { kind, issue, from, to, lots } = *record;
    let name = match kind {
        FAILED => "fails",
        RESOLVED => "resolved",
        _ => "handed",
    };
    object.field("record", Name(name)).issue(issue);
    if matches!(kind, FAILED | RESOLVED) {
        object.account("from", from);
    }
    object.account("to", to).field("lots", lots);
}

/// Something wrong with a line.
fn fault(object: &mut Object<'_, impl Write>, fault: &Fault) {
    object.field("column", fault.column).field("what", fault.what.as_str());
}

/// A ticket's numbers.
fn ticket(object: &mut Object<'_, impl Write>, ticket: &Ticket) {
    let Ticket { issue, unit, account, lots, day, count } = *ticket;
    object.issue(issue).field("unit", unit).account("account", account).field("lots", lots);
    object.day(day).field("count", count);
}

/// Like units.
fn like(object: &mut Object<'_, impl Write>, like: &Like) {
    object.field("first", like.first).field("last", like.last);
    whose(object, &like.unit);
    if let Some(status) = &like.status {
        tell_status(object, status, like.unit.lots);
    }
}

/// An entry of the ledger.
fn entry(object: &mut Object<'_, impl Write>, entry: &Entry) {
    let Entry { issue, from, to, lots, day } = *entry;
    object.issue(issue).account("from", from).account("to", to);
    object.field("lots", lots).field("since", day);
}

/// The book and its folder.
fn status(object: &mut Object<'_, impl Write>, state: &State) {
    object.day(state.day).field("phase", Name(state.phase)).field("turn", state.turn);
    let lifts =
        state.lifts.iter().flat_map(|(issue, lifts)| lifts.iter().map(move |lift| (*issue, *lift)));
    object.field("marked", &state.marked).objects("lifts", lifts, |one, (issue, lift)| {
        one.issue(issue).field("old", lift.old).field("new", lift.new);
    });
    object.field("entries", state.entries).field("charged", state.charged);
    object.field("snapshot", state.number).field("records", state.records);
}

#[cfg(test)]
mod tests {
    use super::*;
    use settlement_day::{Refusal, Status};

    #[test]
    fn answers_are_objects() {
        let fault = Fault { line: 7, column: 3, what: "say \"x\"".to_string() };
        let unit = Unit { account: 2, lots: 3 };
        let why = |status| Answer::Why { issue: 0, unit: 1, found: unit, status };
        let refused = Answer::Refused {
            said: "close".to_string(),
            refusal: Refusal::Phase,
            why: "no".to_string(),
        };
        for (answer, told) in [
            (Answer::Wrong(vec![fault]), r#""wrong","faults":[{"column":3,"what":"say \"x\""}]"#),
            (
                Answer::Unit { issue: 0, unit: 9, found: None },
                r#""unit","issue":0,"unit":9,"account":null,"lots":null"#,
            ),
            (
                why(Status::Waiting { lots: 4 }),
                r#""why","issue":0,"unit":1,"account":2,"lots":3,"status":"waiting","wants":4"#,
            ),
            (
                why(Status::WhollyFailed),
                r#""why","issue":0,"unit":1,"account":2,"lots":3,"status":"wholly failed","lacks":3"#,
            ),
            (refused, r#""refused","said":"close","refusal":3,"why":"no""#),
            (
                Answer::Charges(vec![(1, -5), (2, 5)]),
                r#""charges","charges":[{"account":1,"yen":-5},{"account":2,"yen":5}]"#,
            ),
        ] {
            assert_eq!(
                line(&answer, 7),
                format!("{{\"schema\":1,\"line\":7,\"answer\":{told}}}\n")
            );
        }
    }
}
