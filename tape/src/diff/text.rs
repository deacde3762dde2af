//! The differences as sentences: a line for each day, and below it a line for each difference.

use super::edits::MOST_EDITS;
use super::found::Difference;
use super::order::{Parting, Receivers};
use super::side::{Ends, Line, Refused};
use super::sums::{Amount, Of};
use crate::known::Known;
use crate::measure::{counted, Face, Grouped, Lots};
use crate::telling::text::said;
use crate::whole::Whole;
use settlement_day::calls::Unit;
use settlement_day::Instruction;
use std::io::{self, Write};

/// The two tapes as they are named in sentences.
const NAMES: [&str; 2] = ["A", "B"];

/// An issue as it is told.
fn issue(known: &Known, number: u32) -> String {
    format!("issue {}", known.issue(number))
}

/// Issues as they are told.
fn issues(known: &Known, numbers: &[u32]) -> String {
    match numbers {
        [one] => issue(known, *one),
        all => format!("issues {}", known.issues(all)),
    }
}

/// An account as it is told.
fn account(known: &Known, number: u32) -> String {
    format!("account {}", known.account(number))
}

/// An account as it is told among others in their order, with how many units of it follow one another.
fn in_order(known: &Known, &(number, units): &(u32, u32)) -> String {
    let account = known.account(number);
    match units {
        1 => account.to_string(),
        units => format!("{account} ({units} units)"),
    }
}

/// Which tape is which.
pub fn head(out: &mut impl Write, days: [&Whole; 2]) -> io::Result<()> {
    let [one, other] = days.map(|day| day.day().files().join(", "));
    writeln!(out, "A is {one}, B is {other}")
}

/// What differences of this kind are, one and many, where the first of many are listed.
pub fn kind(found: &Difference) -> Option<[&'static str; 2]> {
    Some(match found {
        Difference::Only { side: 0, .. } => ["instruction only in A", "instructions only in A"],
        Difference::Only { .. } => ["instruction only in B", "instructions only in B"],
        Difference::Moved { .. } => ["instruction that moved", "instructions that moved"],
        Difference::Changed { .. } => ["changed instruction", "changed instructions"],
        Difference::Refused { .. } => {
            ["instruction refused otherwise", "instructions refused otherwise"]
        }
        Difference::Order { .. } => ["order of units", "orders of units"],
        Difference::Sum { of, .. } => kind_of(of),
        _ => return None,
    })
}

/// What sums of this kind are, one and many.
fn kind_of(of: &Of) -> [&'static str; 2] {
    match of {
        Of::Handed { .. } => ["handover", "handovers"],
        Of::Fails { .. } => ["fail", "fails"],
        Of::Resolved { .. } => ["resolve", "resolves"],
        Of::Paired { .. } => ["pair-off", "pair-offs"],
        Of::Charge { .. } => ["charge of the roll", "charges of the roll"],
        Of::ChangeOver => ["change-over day", "change-over days"],
        Of::Marked { .. } => ["mark", "marks"],
        Of::Net { .. } => ["net", "nets"],
        Of::Delivered { .. } => ["account's delivered lots", "accounts' delivered lots"],
        Of::Entry { .. } => ["entry of the ledger", "entries of the ledger"],
        Of::Charged { .. } => ["charge", "charges"],
    }
}

/// How many differences of a kind are not listed.
pub fn rest(out: &mut impl Write, [one, many]: [&str; 2], count: usize) -> io::Result<()> {
    match count {
        1 => writeln!(out, "  1 more {one} is not listed"),
        count => writeln!(out, "  {} more {many} are not listed", Grouped(count as i128)),
    }
}

/// Tells a difference of a day, or of the book at the end.
pub fn tell(
    out: &mut impl Write,
    days: [&Whole; 2],
    known: &Known,
    day: Option<u16>,
    found: &Difference,
) -> io::Result<()> {
    let line = match found {
        Difference::Same { first, last } => {
            format!("{}: the same instructions", days_text(*first, *last))
        }
        Difference::Alone { side, first, last, count, word } => {
            let (stand, name) = (if first == last { "stands" } else { "stand" }, NAMES[*side]);
            let (count, from) = (counted(*count, "instruction"), days[*side].named(*word));
            format!("{} {stand} only in {name}: {count}, from {from} on", days_text(*first, *last))
        }
        Difference::Edited { only, moved, changed, cut } => {
            let counts = edited([only[0], only[1], *moved, *changed], *cut);
            format!("Day {}, instructions: {counts}", day.unwrap_or_default())
        }
        Difference::End { books } => format!("At the end: {}", each(books.map(book))),
        Difference::BooksSame => {
            format!("  day {}: the books end the same", day.unwrap_or_default())
        }
        Difference::Order { issue: number, parting } => {
            format!("  {}", order(known, *number, parting))
        }
        Difference::Sum { of, amounts } => format!("  {}", sum(known, of, *amounts)),
        Difference::ReadingEnds { ends } => format!("  {}", reading_ends(days, *ends)),
        Difference::Ledger => {
            "  the ledgers have the same lots in another order, or parted otherwise".to_string()
        }
        found => format!("  {}", instruction(days, known, found)),
    };
    writeln!(out, "{line}")
}

/// What is told of an instruction, with where it stands.
fn instruction(days: [&Whole; 2], known: &Known, found: &Difference) -> String {
    match found {
        Difference::Unordered { words } => {
            let from = placed(days, *words);
            let most = Grouped(MOST_EDITS as i128);
            format!("from {from} on the order is not compared: there are more than {most} edits")
        }
        Difference::Only { side, line, count } => {
            let (name, place) = (NAMES[*side], days[*side].named(line.word));
            let said = said(&line.instruction, known);
            format!("only in {name}, {}: {said}", repeated(&place, *count))
        }
        Difference::Moved { words, instruction, count: 1 } => {
            format!("moved, {}: {}", placed(days, *words), said(instruction, known))
        }
        Difference::Moved { words, instruction, count } => {
            let (from, count) = (placed(days, *words), Grouped(*count as i128));
            let first = said(instruction, known);
            format!("moved, {count} instructions from {from} on, the first: {first}")
        }
        Difference::Changed { lines, quoted } => {
            let place = placed(days, lines.map(|line| line.word));
            format!("changed, {place}: {}", changed(known, lines, quoted))
        }
        Difference::Refused { lines, refused, count } => {
            let place = placed(days, lines.map(|line| line.word));
            let (place, said) = (repeated(&place, *count), said(&lines[0].instruction, known));
            format!("refused otherwise, {place}: {said}: {}", judged(*refused))
        }
        _ => String::new(),
    }
}

/// How many instructions differ in which way.
fn edited(counts: [usize; 4], cut: bool) -> String {
    let ways = ["only in A", "only in B", "moved", "changed"];
    let some = counts.into_iter().zip(ways).filter(|(count, _)| *count > 0);
    let mut told: Vec<String> =
        some.map(|(count, way)| format!("{} {way}", Grouped(count as i128))).collect();
    if cut {
        told.push("others in another order".to_string());
    }
    told.join(", ")
}

/// A place in both tapes: named once where it is the same.
fn placed(days: [&Whole; 2], words: [usize; 2]) -> String {
    let [one, other] = [0, 1].map(|side| days[side].named(words[side]));
    if one == other {
        return one;
    }
    format!("A {one}, B {other}")
}

/// A place, and how often the same stands from there on.
fn repeated(place: &str, count: usize) -> String {
    match count {
        1 => place.to_string(),
        count => format!("{} times from {place} on", Grouped(count as i128)),
    }
}

/// What is said of both tapes, once where it is the same.
fn each([one, other]: [String; 2]) -> String {
    if one == other {
        return one;
    }
    format!("in A {one}; in B {other}")
}

/// Two amounts, that of A and that of B.
fn amounts([one, other]: [String; 2]) -> String {
    format!("{one} in A, {other} in B")
}

/// An instruction, and what it is in B.
fn changed(known: &Known, lines: &[Line; 2], quoted: &[u32]) -> String {
    let [one, other] = lines.map(|line| line.instruction);
    let mut told = said(&one, known);
    match other {
        Instruction::Trade { lots, .. }
        | Instruction::Deliver { lots, .. }
        | Instruction::Resolve { lots, .. } => {
            told.push_str(&format!("; in B {}", Face(lots.into())));
        }
        other if one != other => told.push_str(&format!("; in B {}", said(&other, known))),
        _ => {}
    }
    if !quoted.is_empty() {
        told.push_str(&format!("; the quotes of {} differ", issues(known, quoted)));
    }
    told
}

/// What became of an instruction in both tapes.
fn judged(refused: [Option<&Refused>; 2]) -> String {
    let told = |side: usize| match refused[side] {
        None => format!("done in {}", NAMES[side]),
        Some(Refused { why, .. }) => format!("in {} {why}", NAMES[side]),
    };
    [told(0), told(1)].join("; ")
}

/// Days from one to another.
fn days_text(first: u16, last: u16) -> String {
    if first == last {
        return format!("Day {first}");
    }
    format!("Days {first} to {last}")
}

/// Day and phase of a book.
fn book((day, phase): (u16, &str)) -> String {
    format!("day {day}, {phase}")
}

/// Where reading ends, in which tape.
fn reading_ends(days: [&Whole; 2], ends: [Option<&Ends>; 2]) -> String {
    let told = |side: usize| match ends[side] {
        None => format!("{} is read to its end", NAMES[side]),
        Some(Ends { word, refusal, why }) => {
            let (name, place) = (NAMES[side], days[side].named(*word));
            format!("reading ends in {name} at {place}, refused by {}: {why}", refusal.number())
        }
    };
    [told(0), told(1)].join("; ")
}

/// Where the orders of an issue's units part.
fn order(known: &Known, number: u32, parting: &Parting) -> String {
    let Parting { unit, units, receivers } = parting;
    let told = |unit: &Option<Unit>| match unit {
        Some(Unit { account: whose, lots }) => {
            format!("{}'s, {}", account(known, *whose), Lots((*lots).into()))
        }
        None => "nobody's".to_string(),
    };
    let units = each(units.each_ref().map(told));
    let orders = each(receivers.each_ref().map(|receivers| order_of(known, receivers)));
    let issue = issue(known, number);
    format!("{issue}: unit {unit} is {units}; the accounts from there on: {orders}")
}

/// Accounts in the order of their units.
fn order_of(known: &Known, receivers: &Receivers) -> String {
    let mut told: Vec<String> =
        receivers.accounts.iter().map(|account| in_order(known, account)).collect();
    match receivers.more {
        0 if told.is_empty() => return "none".to_string(),
        0 => {}
        more => told.push(format!("{} more", counted(more, "unit"))),
    }
    told.join(", ")
}

/// A sum that differs.
fn sum(known: &Known, of: &Of, both: [Amount; 2]) -> String {
    let (lots, yen) = (amounts(both.map(lots)), amounts(both.map(yen)));
    let (issue, account) = (|it| issue(known, it), |it| account(known, it));
    match *of {
        Of::Handed { issue: of, account: whose } => {
            format!("{}: {} is handed {}", issue(of), account(whose), each(both.map(handed)))
        }
        Of::Fails { issue: of, from, to } => {
            format!("{}: {} fails {}: {lots}", issue(of), account(from), account(to))
        }
        Of::Resolved { issue: of, from, to } => {
            format!("{}: {} hands to {} in resolves: {lots}", issue(of), account(from), account(to))
        }
        Of::Paired { issue: of, account: whose } => {
            format!("{}: {} pairs off {lots}", issue(of), account(whose))
        }
        Of::Charge { account: whose } => format!("roll: {}: {yen}", account(whose)),
        Of::Delivered { issue: of, account: whose } => {
            format!("{}: {} has delivered today {lots}", issue(of), account(whose))
        }
        Of::Entry { issue: of, from, to, since } => {
            let (from, to) = (account(from), account(to));
            format!("{}: {from} owes {to} since day {since}: {lots}", issue(of))
        }
        Of::Charged { account: whose } => format!("{}: {yen}", account(whose)),
        Of::ChangeOver | Of::Marked { .. } | Of::Net { .. } => setting(known, of, both),
    }
}

/// An amount that is lots.
fn lots(amount: Amount) -> String {
    match amount.number {
        0 => "nothing".to_string(),
        number => Lots(number.unsigned_abs()).to_string(),
    }
}

/// An amount that is yen.
fn yen(amount: Amount) -> String {
    match amount.number {
        0 => "nothing".to_string(),
        number => format!("{} yen", Grouped(number.into())),
    }
}

/// A setting or a net that differs.
fn setting(known: &Known, of: &Of, both: [Amount; 2]) -> String {
    let told = |amount: Amount| match (of, amount.number) {
        (Of::ChangeOver, 0) => "from no day on".to_string(),
        (Of::ChangeOver, day) => format!("from day {day} on"),
        (Of::Marked { .. }, 0) => "any lots".to_string(),
        (Of::Marked { .. }, _) => "even lots only".to_string(),
        (_, net) => Grouped(net.into()).to_string(),
    };
    let told = amounts(both.map(told));
    match *of {
        Of::ChangeOver => format!("full units are dealt in turn {told}"),
        Of::Marked { issue: of } => format!("{} takes {told}", issue(known, of)),
        Of::Net { issue: of, account: whose } => {
            format!("{}: {} stands at {told}", issue(known, of), account(known, whose))
        }
        _ => told,
    }
}

/// What an account was handed.
fn handed(amount: Amount) -> String {
    match (amount.units, amount.number) {
        (0, 0) => lots(amount),
        (0, _) => format!("{} of a unit", lots(amount)),
        (units, _) => format!("{}, {} in all", counted(units as usize, "unit"), lots(amount)),
    }
}
