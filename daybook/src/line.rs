//! What a line of the console says: an instruction in the text form of a tape, a lift, or a question.

use crate::call::Call;
use ::tape::bytes::split;
use ::tape::fault::{shown, words_of, Fault, Word};
use ::tape::measure::counted;
use ::tape::text::{digits_of, parse};
use settlement_day::{tape, Ticket, ISSUES};

/// The lines that there are, with what each does.
pub const HELP: &str = "\
trade ISSUE FROM TO LOTS        from's net falls, to's rises; in Taking
close                           from Taking to Settling
deliver ISSUE ACCOUNT LOTS      units are handed over in order; in Settling
cutoff                          what has not come is failed; from Settling to Cut
resolve ISSUE ACCOUNT LOTS      the account's fails are met, oldest first
pair-off ISSUE ACCOUNT          fails to the account and from it cancel
roll DAYS RATE PRICE accrued AMOUNT
                                fails are charged, the next day begins; one price or sixteen, and
                                one accrued amount or sixteen
mark ISSUE 1, mark ISSUE 0      the issue takes even lots only, any lots again
turn DAY                        from that day on full units are dealt in turn
ask ISSUE UNIT                  the ticket for a lift of a unit; nothing changes
commit                          lifts the unit that was asked for last
commit ISSUE UNIT ACCOUNT LOTS DAY COUNT
                                lifts the unit of a ticket
unit ISSUE UNIT                 whose the unit is, and its lots; units are numbered from 0
why ISSUE UNIT                  why the unit has not come, or that it has
order ISSUE                     all units of the issue in their order
ledger, charges, status         the fails, the charges, the book and its folder
help, end                       these lines; the end, as the end of the input is
";

/// The words with which a line begins.
const NAMES: [&str; 19] = [
    "trade", "close", "deliver", "cutoff", "resolve", "pair-off", "roll", "mark", "turn", "ask",
    "commit", "unit", "why", "order", "ledger", "charges", "status", "help", "end",
];
/// How many of them are instructions of a tape.
const INSTRUCTIONS: usize = 9;
/// The lines that a tape's text has and a console has not.
const OF_TAPES: [&str; 2] = ["word", "byte"];
/// The most words that a line of the console's own takes, its first among them.
const MOST_WORDS: usize = 7;

/// A field of a line: its name, and the highest number that it takes.
type Field = (&'static str, u32);

const ISSUE: Field = ("issue", ISSUES as u32 - 1);
const UNIT: Field = ("unit", u32::MAX);
const TICKET: [Field; 6] = [
    ISSUE,
    UNIT,
    ("account", u32::MAX),
    ("lots", u32::MAX),
    ("day", u32::MAX),
    ("count", u32::MAX),
];

/// What a line says.
#[derive(Clone, Debug, PartialEq, Eq)]
pub enum Said {
    /// Nothing: it is empty, or a comment.
    Nothing,
    /// A call, and what is to be said of its line.
    Call(Call, Option<String>),
    /// The commit of the ticket that was asked for last.
    Commit,
    Ask(u32, u32),
    Unit(u32, u32),
    Why(u32, u32),
    Order(u32),
    Ledger,
    Charges,
    Status,
    Help,
    End,
}

/// Reads a line of this number, or tells what is wrong with it.
pub fn read(line: &str, number: usize) -> Result<Said, Vec<Fault>> {
    let line = line.strip_prefix('\u{feff}').unwrap_or(line);
    let mut words = words_of(line, number);
    let Some(name) = words.next() else { return Ok(Said::Nothing) };
    let words: Vec<Word> = words.take(MOST_WORDS).collect();
    match NAMES.iter().position(|known| *known == name.text) {
        Some(at) if at < INSTRUCTIONS => instruction(line, number),
        Some(_) => own(&name, &words),
        None => Err(vec![unknown(&name)]),
    }
}

/// What is said of a line that begins with none of the words.
fn unknown(name: &Word) -> Fault {
    let found = shown(name.text);
    if OF_TAPES.contains(&name.text) {
        return name
            .fault(format!("{found} is of tapes alone: write the instruction that is meant"));
    }
    name.fault(format!(
        "there is no {found}: write one of {}; help tells of each",
        NAMES.join(", ")
    ))
}

/// An instruction of a tape.
fn instruction(line: &str, number: usize) -> Result<Said, Vec<Fault>> {
    let parsed = parse(line).map_err(|faults| {
        let here = |fault: Fault| Fault { line: number, ..fault };
        faults.first.into_iter().map(here).collect::<Vec<Fault>>()
    })?;
    let (words, _) = split(&parsed.tape);
    let read = tape::read(&words)
        .map_err(|refusal| vec![Fault { line: number, column: 1, what: refusal.to_string() }]);
    let (instruction, count) = read?;
    let roll = count == settlement_day::WRITER_WORDS;
    let quotes = if roll { tape::quotes(&words).to_vec() } else { Vec::new() };
    let note = parsed.notes.first.into_iter().next().map(|note| note.what);
    Ok(Said::Call(Call::Tape { instruction, quotes }, note))
}

/// A line of the console's own.
fn own(name: &Word, words: &[Word]) -> Result<Said, Vec<Fault>> {
    let two = || numbers(name, &[ISSUE, UNIT], words).map(|found| (found[0], found[1]));
    let none = |said: Said| numbers(name, &[], words).map(|_| said);
    match name.text {
        "ask" => two().map(|(issue, unit)| Said::Ask(issue, unit)),
        "unit" => two().map(|(issue, unit)| Said::Unit(issue, unit)),
        "why" => two().map(|(issue, unit)| Said::Why(issue, unit)),
        "order" => numbers(name, &[ISSUE], words).map(|found| Said::Order(found[0])),
        "commit" if words.is_empty() => Ok(Said::Commit),
        "commit" => {
            let found = numbers(name, &TICKET, words)?;
            let ticket = [found[0], found[1], found[2], found[3], found[4], found[5]];
            Ok(Said::Call(Call::Commit(Ticket::of_numbers(ticket)), None))
        }
        "ledger" => none(Said::Ledger),
        "charges" => none(Said::Charges),
        "status" => none(Said::Status),
        "help" => none(Said::Help),
        _ => none(Said::End),
    }
}

/// The numbers of a line; all that are wrong are told.
fn numbers(name: &Word, fields: &[Field], words: &[Word]) -> Result<Vec<u32>, Vec<Fault>> {
    if words.len() != fields.len() {
        let names: Vec<&str> = fields.iter().map(|(name, _)| *name).collect();
        let takes = if names.is_empty() { "no numbers".to_string() } else { names.join(", ") };
        let or = if name.text == "commit" { ", or nothing after `ask`" } else { "" };
        let more = if words.len() == MOST_WORDS { "or more " } else { "" };
        let here = counted(words.len(), &format!("{more}number"));
        let what = format!("{} takes {takes}{or}; here: {here}", name.text);
        return Err(vec![name.fault(what)]);
    }
    let (mut numbers, mut faults) = (Vec::new(), Vec::new());
    for (field, word) in fields.iter().zip(words) {
        match number(*field, word) {
            Ok(number) => numbers.push(number),
            Err(fault) => faults.push(fault),
        }
    }
    if faults.is_empty() {
        return Ok(numbers);
    }
    Err(faults)
}

/// One number of a line.
fn number((name, most): Field, word: &Word) -> Result<u32, Fault> {
    let found = shown(word.text);
    let Some(digits) = digits_of(word.text) else {
        return Err(word.fault(format!(
            "{name} {found} is not a number: write digits alone, or with `,` or `_` before every three"
        )));
    };
    digits.parse().ok().filter(|number| *number <= most).ok_or_else(|| {
        word.fault(format!("{name} {found} is too large: write a number from 0 to {most}"))
    })
}

#[cfg(test)]
mod tests {
    use super::*;
    use settlement_day::Instruction;

    fn said(line: &str) -> Said {
        read(line, 1).unwrap_or_else(|faults| panic!("{line}: {faults:?}"))
    }

    #[test]
    fn every_line_is_read() {
        let tape = |instruction| Said::Call(Call::Tape { instruction, quotes: Vec::new() }, None);
        let trade = Instruction::Trade { issue: 0, from: 4, to: 1, lots: 230_000 };
        assert_eq!(said("  trade 0 4 1 230,000 # P5"), tape(trade));
        assert_eq!(said("close"), tape(Instruction::Close));
        for nothing in ["", "# a note", "\t"] {
            assert_eq!(said(nothing), Said::Nothing);
        }
        assert_eq!(said("ask 0 5"), Said::Ask(0, 5));
        assert_eq!(said("unit 15 4294967295"), Said::Unit(15, u32::MAX));
        assert_eq!([said("why 1 2"), said("order 3")], [Said::Why(1, 2), Said::Order(3)]);
        assert_eq!([said("ledger"), said("charges")], [Said::Ledger, Said::Charges]);
        assert_eq!(
            [said("status"), said("help"), said("end")],
            [Said::Status, Said::Help, Said::End]
        );
        assert_eq!(said("commit"), Said::Commit);
        let ticket = Ticket { issue: 0, unit: 5, account: 2, lots: 50_000, day: 0, count: 1 };
        assert_eq!(said("commit 0 5 2 50,000 0 1"), Said::Call(Call::Commit(ticket), None));
        let Said::Call(Call::Tape { quotes, .. }, note) = said("roll 1 300 100000") else {
            panic!("roll")
        };
        assert_eq!((quotes.len(), quotes[0], quotes[31]), (32, 100_000, 0));
        assert!(note.is_some_and(|note| note.starts_with("this roll has no accrued amounts")));
    }

    #[test]
    fn what_a_call_says_is_read_as_the_call() {
        for line in ["trade 0 4 1 230000", "close", "roll 1 300 100000 accrued 0", "turn 9"] {
            let Said::Call(call, _) = said(line) else { panic!("{line}") };
            assert_eq!(call.line(), line);
        }
        let Said::Call(call, _) = said("commit 0 5 2 50000 0 1") else { panic!("commit") };
        assert_eq!((call.line().as_str(), call.name()), ("commit 0 5 2 50000 0 1", "commit"));
    }

    #[test]
    fn wrong_lines_are_told_what_to_do() {
        for (line, column, what) in [
            ("sell 1", 1, "there is no \"sell\": write one of trade, close"),
            ("word 50000000", 1, "\"word\" is of tapes alone"),
            ("  ask 0", 3, "ask takes issue, unit; here: 1 number"),
            ("why 16 0", 5, "issue \"16\" is too large: write a number from 0 to 15"),
            ("unit 0 x", 8, "unit \"x\" is not a number: write digits"),
            ("ledger 1", 1, "ledger takes no numbers; here: 1 number"),
            ("commit 1 2", 1, "commit takes issue, unit, account, lots, day, count, or nothing"),
            ("order 0 0 0 0 0 0 0 0 0", 1, "order takes issue; here: 7 or more numbers"),
            ("deliver 0 64 1", 11, "account \"64\" is too large: write a number from 0 to 63"),
            ("unit 0 4294967296", 8, "unit \"4294967296\" is too large"),
        ] {
            let faults = read(line, 7).unwrap_err();
            assert_eq!((faults[0].line, faults[0].column), (7, column), "{line}");
            assert!(faults[0].what.starts_with(what), "{line}: {}", faults[0].what);
        }
        assert_eq!(read("trade 16 64 0 1", 3).unwrap_err().len(), 2);
    }

    #[test]
    fn help_has_every_word() {
        for name in NAMES {
            assert!(HELP.contains(name), "{name}");
        }
        assert!(HELP.lines().all(|line| line.len() <= 100));
    }
}
