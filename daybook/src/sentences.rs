//! Answers in words: a first line, and below it what else there is to tell.

use crate::answer::{Answer, Done, State};
use crate::call::{Call, Record, FAILED, RESOLVED};
use crate::line::HELP;
use crate::orders::Like;
use settlement_day::calls::Unit;
use settlement_day::{Entry, Instruction, Status, Ticket};
use tape::fault::Fault;
use tape::measure::{counted, Face, Grouped, Lots};

/// An answer in words; the first line is its head.
pub fn lines(answer: &Answer) -> Vec<String> {
    match answer {
        Answer::Done(done) => self::done(done),
        Answer::Refused { said, why, .. } => vec![format!("{said}: {why}")],
        Answer::NotDone { said, why } => vec![format!("not done: {said}: {why}")],
        Answer::Wrong(faults) => faults.iter().map(wrong).collect(),
        Answer::Nothing(why) => vec![why.clone()],
        Answer::Ticket(found) => vec![ticket(found)],
        Answer::Unit { issue, unit, found: None } => {
            vec![format!("issue {issue} has no unit {unit}")]
        }
        Answer::Unit { issue, unit, found: Some(found) } => {
            vec![format!("unit {unit} of issue {issue}: {}", whose(*found))]
        }
        Answer::Why { issue, unit, found, status } => {
            let told = told(*status);
            vec![format!("unit {unit} of issue {issue}, {}, {told}", whose(*found))]
        }
        Answer::Order { issue, units } => order(*issue, units),
        Answer::Ledger(entries) => ledger(entries),
        Answer::Charges(charges) => self::charges(charges),
        Answer::Status(state) => status(state),
        Answer::Help => HELP.lines().map(String::from).collect(),
    }
}

/// An answer as one line.
pub fn one_line(answer: &Answer) -> String {
    let lines = lines(answer);
    let parts: Vec<&str> = lines.iter().map(|line| line.trim()).collect();
    parts.join("; ")
}

/// What is wrong with a line.
fn wrong(fault: &Fault) -> String {
    format!("wrong: {fault}")
}

/// What a call did.
fn done(done: &Done) -> Vec<String> {
    let mut lines = vec![format!("done: {}", done.call.line())];
    lines.extend(done.note.clone());
    let like = done.records.chunk_by(|one, next| one == next);
    let cutoff = matches!(done.call, Call::Tape { instruction: Instruction::Cutoff, .. });
    lines.extend(like.map(|like| record(&like[0], like.len(), cutoff)));
    let (day, phase) = (done.day, done.phase);
    match &done.call {
        Call::Commit(_) | Call::Tape { instruction: Instruction::Deliver { .. }, .. }
            if done.records.is_empty() =>
        {
            lines.push("nothing is handed over yet".to_string());
        }
        Call::Tape { instruction: Instruction::Cutoff, .. } => {
            if done.records.iter().all(|record| record.kind != FAILED) {
                lines.push("nothing fails".to_string());
            }
            lines.push(format!("day {day}, {phase}"));
        }
        Call::Tape { instruction: Instruction::PairOff { .. }, .. } => {
            let (steps, lots) = (counted(done.count, "step"), Lots(done.cancelled));
            lines.push(format!("{steps}, {lots} cancelled"));
        }
        Call::Tape { instruction: Instruction::Close | Instruction::Roll { .. }, .. } => {
            lines.push(format!("day {day}, {phase}"));
        }
        _ => {}
    }
    lines
}

/// So many like records. What a cutoff hands over is what was left in stock.
fn record(record: &Record, count: usize, cutoff: bool) -> String {
    let Record { kind, issue, from, to, lots } = *record;
    let lots = Face(lots.into());
    match kind {
        FAILED => format!("issue {issue}: account {from} fails account {to}: {lots}"),
        RESOLVED => format!("issue {issue}: account {from} hands to account {to}: {lots}"),
        _ if cutoff => format!("issue {issue}: the remaining stock goes to account {to}: {lots}"),
        _ if count == 1 => format!("issue {issue}: handed to account {to}: {lots}"),
        _ => format!("issue {issue}: handed to account {to}: {count} units of {lots}"),
    }
}

/// A ticket, and the line that lifts its unit.
fn ticket(found: &Ticket) -> String {
    let Ticket { issue, unit, account, lots, .. } = *found;
    let line = Call::Commit(*found).line();
    let whose = whose(Unit { account, lots });
    format!("ticket for unit {unit} of issue {issue}, {whose}: lift it by `commit`, or `{line}`")
}

/// Whose a unit is, and its lots.
fn whose(unit: Unit) -> String {
    format!("{} for account {}", Face(unit.lots.into()), unit.account)
}

/// What is told of a unit.
fn told(status: Status) -> String {
    match status {
        Status::Handed => "is handed".to_string(),
        Status::Waiting { lots } => format!(
            "waits: with {} more delivered in the issue, and no lift between, it is handed",
            Lots(lots.into())
        ),
        Status::PartlyFailed { lots } => {
            format!("partly failed: at the cutoff it lacked {}", Face(lots.into()))
        }
        Status::WhollyFailed => "wholly failed: at the cutoff nothing of it had come".to_string(),
    }
}

/// The units of an issue in their order.
fn order(issue: u32, units: &[Like]) -> Vec<String> {
    let all = units.last().map_or(0, |like| like.last as usize + 1);
    let mut lines = vec![format!("issue {issue}: {}", counted(all, "unit"))];
    lines.extend(units.iter().map(|like| {
        let Like { first, last, unit, status } = *like;
        let each = if first == last { "" } else { " each" };
        let units = if first == last {
            format!("unit {first}")
        } else {
            format!("units {first} to {last}")
        };
        let status = match status {
            None => "",
            Some(Status::Handed) => ", handed",
            Some(Status::Waiting { .. }) => ", not handed yet",
            Some(Status::PartlyFailed { .. }) => ", partly failed",
            Some(Status::WhollyFailed) => ", wholly failed",
        };
        format!("{units}: account {}, {}{each}{status}", unit.account, Lots(unit.lots.into()))
    }));
    lines
}

/// The ledger.
fn ledger(entries: &[Entry]) -> Vec<String> {
    let ies = if entries.len() == 1 { "y" } else { "ies" };
    let mut lines = vec![format!("{} fail entr{ies}", Grouped(entries.len() as i128))];
    lines.extend(entries.iter().map(|entry| {
        let Entry { issue, from, to, lots, day } = *entry;
        let lots = Face(lots.into());
        format!("issue {issue}: account {from} owes account {to} {lots}, since day {day}")
    }));
    lines
}

/// The charges that are not 0.
fn charges(charges: &[(u32, i64)]) -> Vec<String> {
    let mut lines = vec![format!("{} with charges", counted(charges.len(), "account"))];
    lines.extend(
        charges
            .iter()
            .map(|(account, yen)| format!("account {account}: {} yen", Grouped((*yen).into()))),
    );
    lines
}

/// The book and its folder.
fn status(state: &State) -> Vec<String> {
    let State { day, phase, turn, entries, charged, number, records, .. } = *state;
    let mut lines = vec![format!("day {day}, {phase}")];
    lines.push(match turn {
        0 => "full units account by account, no change-over day is named".to_string(),
        turn if turn <= day.into() => format!("full units are dealt in turn since day {turn}"),
        turn => format!("full units are dealt in turn from day {turn} on"),
    });
    lines.extend(state.marked.iter().map(|issue| format!("issue {issue} takes even lots only")));
    for (issue, lifts) in &state.lifts {
        let places: Vec<String> =
            lifts.iter().map(|lift| format!("unit {} to place {}", lift.old, lift.new)).collect();
        lines.push(format!(
            "issue {issue}: {}: {}",
            counted(lifts.len(), "lift"),
            places.join(", ")
        ));
    }
    let ies = if entries == 1 { "y" } else { "ies" };
    let charged = counted(charged, "account");
    lines.push(format!("{} fail entr{ies}, {charged} with charges", Grouped(entries as i128)));
    let records = counted(records as usize, "record");
    lines.push(format!("on the disk: snapshot-{number}, journal-{number} with {records}"));
    lines
}

#[cfg(test)]
mod tests {
    use super::*;

    #[test]
    fn an_answer_as_one_line_has_all_its_lines() {
        let entry = |lots| Entry { issue: 3, from: 4, to: 2, lots, day: 9 };
        let answer = Answer::Ledger(vec![entry(1), entry(5_000)]);
        let told = "2 fail entries; issue 3: account 4 owes account 2 1 lot (50,000 yen face), since \
            day 9; issue 3: account 4 owes account 2 5,000 lots (250,000,000 yen face), since day 9";
        assert_eq!(one_line(&answer), told);
        assert_eq!(one_line(&Answer::Ledger(vec![])), "0 fail entries");
        assert!(!one_line(&Answer::Help).contains('\n'));
    }

    #[test]
    fn what_stands_on_the_disk_is_told() {
        let state = State {
            day: 3,
            phase: "Settling",
            turn: 2,
            marked: vec![15],
            lifts: vec![(0, vec![settlement_day::Lift { old: 7, new: 3 }])],
            entries: 1,
            charged: 0,
            number: 2,
            records: 1,
        };
        let told = "day 3, Settling; full units are dealt in turn since day 2; issue 15 takes even lots \
            only; issue 0: 1 lift: unit 7 to place 3; 1 fail entry, 0 accounts with charges; on the \
            disk: snapshot-2, journal-2 with 1 record";
        assert_eq!(one_line(&Answer::Status(Box::new(state))), told);
    }
}
