//! The console: lines in, answers out. A call is made on a copy of the book; where it is accepted its record
//! is put on the disk, and only then the copy is the book and the call is answered.

use crate::answer::{Answer, Done, State};
use crate::call::{records, Call};
use crate::files::Files;
use crate::line::{self, Said};
use crate::orders::order;
use crate::store::{Failed, Store};
use crate::{json, sentences};
use settlement_day::calls::{self, Done as Called};
use settlement_day::{Book, Instruction, Refusal, Ticket, ISSUES, OUTPUT_WORDS};
use std::io::{self, BufRead, BufReader, Read, Write};
use tape::fault::Fault;
use tape::known::Known;
use tape::why::why;

/// The most bytes of a line.
const MOST_LINE: u64 = 1 << 16;
/// The bytes that are read at once: with `--batch`, at most so many are one batch.
const AT_ONCE: usize = 1 << 16;

/// How lines are taken and answered.
#[derive(Clone, Copy, Debug, Default, PartialEq, Eq)]
pub struct Manner {
    /// A person sits there: a prompt, more than a line for an answer, a question before a commit.
    pub terminal: bool,
    pub json: bool,
    /// One sync for all lines that came together.
    pub batch: bool,
}

/// How a console ended.
#[derive(Clone, Copy, Debug, PartialEq, Eq)]
pub enum Ended {
    /// Every line was done or answered.
    Well,
    /// A line was wrong or refused.
    Refused,
    /// The disk failed, and the folder is as answered.
    NotDone,
    /// The disk failed, and the folder may have one batch more than was answered; or answers could not be
    /// written.
    Unsure,
}

/// A console at work.
struct Console<'a, F> {
    store: Store<F>,
    /// The book as answered, and the book with what is not on the disk yet.
    book: Book,
    next: Book,
    /// The ticket that was asked for last.
    ticket: Option<Ticket>,
    output: Vec<u32>,
    /// The records that are not on the disk yet, and the answers that wait for them.
    records: Vec<u8>,
    waiting: Vec<(usize, Answer)>,
    manner: Manner,
    answers: &'a mut dyn Write,
    ended: Ended,
}

/// Reads lines and answers them until the input ends.
pub fn run<F: Files>(
    store: Store<F>,
    book: Book,
    manner: Manner,
    input: impl Read,
    answers: &mut dyn Write,
) -> io::Result<Ended> {
    let mut input = BufReader::with_capacity(AT_ONCE, input);
    let mut console = Console::new(store, book, manner, answers);
    for number in 1.. {
        console.prompt()?;
        let Some(line) = read_line(&mut input, number)? else {
            console.leave()?;
            break;
        };
        let said = line.and_then(|line| line::read(&line, number));
        if said == Ok(Said::End) {
            break;
        }
        let answer = match said {
            Ok(said) => console.hear(said, &mut input)?,
            Err(faults) => Some(Answer::Wrong(faults)),
        };
        console.waiting.extend(answer.map(|answer| (number, answer)));
        let more = manner.batch && input.buffer().contains(&b'\n');
        if !more {
            console.settle()?;
        }
        if console.ended == Ended::Unsure {
            break;
        }
    }
    console.settle()?;
    Ok(console.ended)
}

/// The next line without its end, or what is wrong with it; none at the end of the input.
fn read_line(
    input: &mut impl BufRead,
    number: usize,
) -> io::Result<Option<Result<String, Vec<Fault>>>> {
    let fault = |column, what: String| Err(vec![Fault { line: number, column, what }]);
    let mut bytes = Vec::new();
    input.by_ref().take(MOST_LINE).read_until(b'\n', &mut bytes)?;
    if bytes.is_empty() {
        return Ok(None);
    }
    if bytes.len() as u64 == MOST_LINE && bytes.last() != Some(&b'\n') {
        input.skip_until(b'\n')?;
        let what = format!("the line is longer than {MOST_LINE} bytes: write one call a line");
        return Ok(Some(fault(1, what)));
    }
    Ok(Some(String::from_utf8(bytes).or_else(|error| {
        let valid = error.utf8_error().valid_up_to();
        let before = String::from_utf8_lossy(&error.as_bytes()[..valid]).chars().count();
        fault(before + 1, "the line is not in UTF-8 from here on: write it so".to_string())
    })))
}

impl<'a, F: Files> Console<'a, F> {
    /// A console on a store and its book.
    fn new(
        store: Store<F>,
        book: Book,
        manner: Manner,
        answers: &'a mut dyn Write,
    ) -> Console<'a, F> {
        Console {
            store,
            next: book.clone(),
            book,
            ticket: None,
            output: vec![0; OUTPUT_WORDS],
            records: Vec::new(),
            waiting: Vec::new(),
            manner,
            answers,
            ended: Ended::Well,
        }
    }

    /// Asks a person for the next line.
    fn prompt(&mut self) -> io::Result<()> {
        if !self.manner.terminal {
            return Ok(());
        }
        write!(self.answers, "day {}, {}> ", self.next.day, phase(&self.next))?;
        self.answers.flush()
    }

    /// Ends a person's last line, on which nothing was written.
    fn leave(&mut self) -> io::Result<()> {
        if self.manner.terminal {
            writeln!(self.answers)?;
        }
        Ok(())
    }

    /// The answer to a line that can be read; none to one that says nothing.
    fn hear(&mut self, said: Said, input: &mut impl BufRead) -> io::Result<Option<Answer>> {
        let book = &self.next;
        Ok(Some(match said {
            Said::Nothing | Said::End => return Ok(None),
            Said::Call(Call::Commit(ticket), _) => self.commit(ticket, input)?,
            Said::Call(call, note) => self.call(call, note),
            Said::Commit => match self.ticket {
                Some(ticket) => self.commit(ticket, input)?,
                None => Answer::Nothing(
                    "there is no ticket: ask for one by `ask ISSUE UNIT`, or write its six numbers"
                        .to_string(),
                ),
            },
            Said::Ask(issue, unit) => self.ask(issue, unit),
            Said::Unit(issue, unit) => {
                Answer::Unit { issue, unit, found: calls::unit(book, issue, unit).ok().flatten() }
            }
            Said::Why(issue, unit) => self.why(issue, unit),
            Said::Order(issue) => Answer::Order { issue, units: order(book, issue) },
            Said::Ledger => Answer::Ledger(book.ledger().collect()),
            Said::Charges => Answer::Charges(charges(book)),
            Said::Status => Answer::Status(Box::new(self.state())),
            Said::Help => Answer::Help,
        }))
    }

    /// Makes a call on the book with what is not on the disk yet, and keeps its record.
    fn call(&mut self, call: Call, note: Option<String>) -> Answer {
        let mut next = self.next.clone();
        let Called { count, cancelled } = match call.make(&mut next, &mut self.output) {
            Ok(done) => done,
            Err(refusal) => {
                let why = why_refused(&self.next, &call, refusal);
                return Answer::Refused { said: call.line(), refusal, why };
            }
        };
        let behind = self.records.len() / crate::format::RECORD_BYTES;
        match self.store.record(&call, behind) {
            Ok(bytes) => self.records.extend(bytes),
            Err(why) => return Answer::NotDone { said: call.line(), why },
        }
        self.next = next;
        let of_steps = matches!(call, Call::Tape { instruction: Instruction::PairOff { .. }, .. });
        let records = if of_steps { Vec::new() } else { records(&self.output, count) };
        let (day, phase) = (self.next.day, phase(&self.next));
        Answer::Done(Box::new(Done { call, note, count, cancelled, records, day, phase }))
    }

    /// Lifts the unit of a ticket; a person is asked first.
    fn commit(&mut self, ticket: Ticket, input: &mut impl BufRead) -> io::Result<Answer> {
        if self.manner.terminal && !self.agreed(&ticket, input)? {
            return Ok(Answer::Nothing("nothing is lifted".to_string()));
        }
        Ok(self.call(Call::Commit(ticket), None))
    }

    /// Does a person say yes to a lift?
    fn agreed(&mut self, ticket: &Ticket, input: &mut impl BufRead) -> io::Result<bool> {
        let Ticket { issue, unit, account, lots, .. } = *ticket;
        write!(
            self.answers,
            "lift unit {unit} of issue {issue}, {} for account {account}, before all that are not \
             handed? It cannot be taken back. yes or no: ",
            tape::measure::Face(lots.into())
        )?;
        self.answers.flush()?;
        let mut line = Vec::new();
        input.by_ref().take(MOST_LINE).read_until(b'\n', &mut line)?;
        let said = String::from_utf8_lossy(&line).trim().to_lowercase();
        Ok(said == "yes" || said == "y")
    }

    /// The ticket for a lift, which `commit` alone then takes.
    fn ask(&mut self, issue: u32, unit: u32) -> Answer {
        match calls::ask(&self.next, issue, unit) {
            Ok(ticket) => {
                self.ticket = Some(ticket);
                Answer::Ticket(ticket)
            }
            Err(refusal) => refused(format!("ask {issue} {unit}"), Some(refusal)),
        }
    }

    /// Why a unit has not come.
    fn why(&self, issue: u32, unit: u32) -> Answer {
        let told = calls::status(&self.next, issue, unit);
        match (told, calls::unit(&self.next, issue, unit).ok().flatten()) {
            (Ok(status), Some(found)) => Answer::Why { issue, unit, found, status },
            _ => refused(format!("why {issue} {unit}"), told.err()),
        }
    }

    /// The book and its folder.
    fn state(&self) -> State {
        let book = &self.next;
        let issues = 0..ISSUES as u32;
        let lifts = issues.clone().map(|issue| (issue, book.lifts(issue).collect::<Vec<_>>()));
        State {
            day: book.day,
            phase: phase(book),
            turn: book.turn,
            marked: issues.filter(|&issue| book.is_marked(issue)).collect(),
            lifts: lifts.filter(|(_, lifts)| !lifts.is_empty()).collect(),
            entries: book.entries,
            charged: charges(book).len(),
            number: self.store.number(),
            records: self.store.records()
                + (self.records.len() / crate::format::RECORD_BYTES) as u64,
        }
    }

    /// Puts the records on the disk and gives the answers that wait; where the disk fails, the book is as
    /// answered, and what was done since is not.
    fn settle(&mut self) -> io::Result<()> {
        let stored =
            if self.records.is_empty() { Ok(()) } else { self.store.append(&self.records) };
        self.records.clear();
        match stored {
            Ok(()) => self.book = self.next.clone(),
            Err(failed) => {
                self.next = self.book.clone();
                self.ticket = None;
                let (ended, why) = match failed {
                    Failed::NotDone(why) => (Ended::NotDone, why),
                    Failed::Unsure(why) => {
                        (Ended::Unsure, format!("{why}; it is not known whether it is on the disk"))
                    }
                };
                self.ended = ended;
                self.waiting.iter_mut().for_each(|(_, answer)| not_done(answer, &why));
            }
        }
        for (line, answer) in std::mem::take(&mut self.waiting) {
            self.give(line, &answer)?;
        }
        self.answers.flush()
    }

    /// Gives an answer.
    fn give(&mut self, line: usize, answer: &Answer) -> io::Result<()> {
        if answer.is_bad() && self.ended == Ended::Well {
            self.ended = Ended::Refused;
        }
        if self.manner.json {
            return self.answers.write_all(json::line(answer, line).as_bytes());
        }
        if !self.manner.terminal {
            return writeln!(self.answers, "{}", sentences::one_line(answer));
        }
        for (at, line) in sentences::lines(answer).iter().enumerate() {
            let indent = if at == 0 || *answer == Answer::Help { "" } else { "    " };
            writeln!(self.answers, "{indent}{line}")?;
        }
        Ok(())
    }
}

/// Makes of an answer that waited for the disk that nothing is done.
fn not_done(answer: &mut Answer, why: &str) {
    let said = match &*answer {
        Answer::Wrong(_) | Answer::Help => return,
        Answer::Done(done) => done.call.line(),
        Answer::Refused { said, .. } | Answer::NotDone { said, .. } => said.clone(),
        other => sentences::lines(other).swap_remove(0),
    };
    *answer = Answer::NotDone { said, why: why.to_string() };
}

/// The name of a book's phase.
fn phase(book: &Book) -> &'static str {
    book.phase.name().unwrap_or("no phase")
}

/// The accounts with charges, and these.
fn charges(book: &Book) -> Vec<(u32, i64)> {
    (0..).zip(book.charges).filter(|(_, yen)| *yen != 0).collect()
}

/// Why the book refuses a call, with the numbers behind it.
fn why_refused(book: &Book, call: &Call, refusal: Refusal) -> String {
    match call {
        Call::Tape { instruction, quotes } => {
            why(book, instruction, quotes, refusal, &Known::default())
        }
        Call::Commit(_) => of_lift(refusal),
    }
}

/// A question that the book refuses.
fn refused(said: String, refusal: Option<Refusal>) -> Answer {
    let refusal = refusal.unwrap_or(Refusal::Unit);
    Answer::Refused { said, refusal, why: of_lift(refusal) }
}

/// A refusal of a lift or of a question about a unit, and what to do.
fn of_lift(refusal: Refusal) -> String {
    let what = match refusal {
        Refusal::Phase => "close the day's trades first; lifts are made before the cutoff",
        Refusal::Unit => "`order ISSUE` shows the units",
        Refusal::Ticket => "ask again, look whether it is still the unit that is meant, and commit",
        Refusal::Lifts => "deliver, or wait for the roll, which clears the lifts",
        _ => return refusal.to_string(),
    };
    format!("{refusal}; {what}")
}

#[cfg(test)]
mod tests {
    use super::*;
    use crate::files::Disk;
    use crate::store::{self, Opened};
    use std::path::PathBuf;

    /// A folder of a book in Settling with one unit of 40 lots for account 2, covered by stock.
    fn folder(name: &str) -> PathBuf {
        let folder = std::env::temp_dir().join(format!("daybook-{}-{name}", std::process::id()));
        let _ = std::fs::remove_dir_all(&folder);
        store::make(&mut Disk, &folder).unwrap();
        let lines = "trade 3 8 1 150000\ntrade 3 9 2 40\nclose\ndeliver 3 9 40\n";
        let answers = said(&folder, Manner::default(), lines);
        assert!(answers.lines().all(|answer| answer.starts_with("done: ")), "{answers}");
        folder
    }

    /// What a console answers to lines.
    fn said(folder: &std::path::Path, manner: Manner, lines: &str) -> String {
        let Opened { store, book, .. } = store::open(Disk, folder).unwrap();
        let mut answers = Vec::new();
        run(store, book, manner, lines.as_bytes(), &mut answers).unwrap();
        String::from_utf8(answers).unwrap()
    }

    #[test]
    fn a_person_is_asked_before_a_commit() {
        let folder = folder("asked");
        let manner = Manner { terminal: true, ..Manner::default() };
        let answers = said(&folder, manner, "commit\nask 3 2\ncommit\nno\ncommit\nyes, why\n");
        let lines: Vec<&str> = answers.lines().collect();
        let prompt = "day 0, Settling> ";
        assert!(lines[0].starts_with(&format!("{prompt}there is no ticket: ask for one")));
        assert!(lines[1].starts_with(&format!("{prompt}ticket for unit 2 of issue 3, 40 lots")));
        let question = format!("{prompt}lift unit 2 of issue 3, 40 lots (2,000,000 yen face) for");
        for at in [2, 3] {
            assert!(lines[at].starts_with(&question), "{}", lines[at]);
            assert!(lines[at].ends_with("yes or no: nothing is lifted"), "{}", lines[at]);
        }
        assert_eq!((lines[4], lines.len()), (prompt, 5));
        let answers = said(&folder, manner, "commit 3 2 2 40 0 1\nYes\norder 3\n");
        let lines: Vec<&str> = answers.lines().collect();
        assert!(lines[0].ends_with("yes or no: done: commit 3 2 2 40 0 1"), "{answers}");
        assert_eq!(lines[1], "    issue 3: handed to account 2: 40 lots (2,000,000 yen face)");
        assert_eq!(lines[3], "    unit 0: account 2, 40 lots, handed");
        std::fs::remove_dir_all(&folder).unwrap();
    }

    #[test]
    fn a_program_is_not_asked_and_refusals_say_what_to_do() {
        let folder = folder("not-asked");
        let lines = "ask 3 2\ncommit\ncommit\nwhy 3 9\nask 0 0\ncommit 3 1 1 100000 0 1\n";
        let answers = said(&folder, Manner::default(), lines);
        let lines: Vec<&str> = answers.lines().collect();
        assert!(lines[1].starts_with("done: commit 3 2 2 40 0 1; issue 3: handed to account 2"));
        assert!(
            lines[2].starts_with("commit 3 2 2 40 0 1: refused by 17: the ticket"),
            "{answers}"
        );
        assert!(lines[2].ends_with("still the unit that is meant, and commit"), "{}", lines[2]);
        assert!(lines[3].starts_with("why 3 9: refused by 16: "), "{}", lines[3]);
        assert!(lines[4].ends_with("`order ISSUE` shows the units"), "{}", lines[4]);
        assert!(lines[5].starts_with("commit 3 1 1 100000 0 1: refused by 17: "), "{}", lines[5]);
        std::fs::remove_dir_all(&folder).unwrap();
    }
}
