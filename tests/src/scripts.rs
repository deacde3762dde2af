//! Scripts for the console: lines with their calls, what the second engine says to the answers, and the books
//! that a folder may hold after them.

use crate::books::Shape;
use crate::convert::same_numbers;
use crate::engines::by_reference_on_sound;
use crate::random_calls::random_call;
use crate::random_lifts::Tickets;
use crate::random_tapes::words_of;
use crate::rng::Rng;
use crate::steps::Call;
use reference::book::{Book, ISSUES};
use reference::questions::CALL_OUTPUT;
use tape::bytes::join;
use tape::text::of_tape;

/// A line of a script and its call; the console lends an output that is long enough.
#[derive(Clone, Debug, PartialEq, Eq)]
pub struct Line {
    pub text: String,
    pub call: Call,
}

impl Line {
    /// The line of a call; none where the console has no line for it.
    pub fn of(call: Call) -> Option<Line> {
        let issue = ISSUES as u32;
        let text = match &call {
            Call::Ask { issue: at, unit } => (*at < issue).then(|| format!("ask {at} {unit}")),
            Call::Unit { issue: at, k } => (*at < issue).then(|| format!("unit {at} {k}")),
            Call::Status { issue: at, k } => (*at < issue).then(|| format!("why {at} {k}")),
            Call::Commit { ticket, .. } => (ticket.issue < issue).then(|| {
                let (unit, account, lots) = (ticket.unit, ticket.account, ticket.lots);
                let (day, count) = (ticket.day, ticket.count);
                format!("commit {} {unit} {account} {lots} {day} {count}", ticket.issue)
            }),
            other => words_of(other).map(|words| of_tape(&join(&words)).trim_end().to_string()),
        };
        text.map(|text| Line { text, call })
    }

    /// The number with which the second engine answers, on a book that it changes.
    fn number(&self, book: &mut Book) -> u32 {
        let mut output = vec![0; CALL_OUTPUT];
        by_reference_on_sound(book, &lent(&self.call), &mut output).number
    }

    /// Does it change the book where it is accepted?
    fn changes(&self) -> bool {
        !matches!(self.call, Call::Ask { .. } | Call::Unit { .. } | Call::Status { .. })
    }
}

/// The call with an output as the console lends it.
fn lent(call: &Call) -> Call {
    let out = CALL_OUTPUT;
    match *call {
        Call::Deliver { issue, account, lots, .. } => Call::Deliver { issue, account, lots, out },
        Call::Commit { ticket, .. } => Call::Commit { ticket, out },
        Call::Cutoff { .. } => Call::Cutoff { out },
        Call::Resolve { issue, account, lots, .. } => Call::Resolve { issue, account, lots, out },
        ref other => other.clone(),
    }
}

/// A random script of so many lines.
pub fn random_script(rng: &mut Rng, lines: usize) -> Vec<Line> {
    let shape = Shape::few(rng);
    let mut tickets = Tickets::default();
    let mut book = Book::fresh();
    let mut script = Vec::new();
    while script.len() < lines {
        let lift = rng.chance(1, 5);
        let call = match lift {
            true => tickets.random_call(rng, &shape, &book),
            false => random_call(rng, &shape, &book),
        };
        let Some(line) = Line::of(call) else { continue };
        line.number(&mut book);
        script.push(line);
    }
    script
}

/// What came of a script's lines: the book after those that were answered as done, and the lines behind
/// them of which nothing is known.
#[derive(Clone, Debug)]
pub struct Followed {
    pub book: Book,
    pub done: usize,
    pub unknown: Vec<Line>,
}

/// Follows the answers to a script, a line each, with the second engine: each must be as it says.
pub fn follow(script: &[Line], answers: &str) -> Result<Followed, String> {
    let whole = &answers[..answers.rfind('\n').map_or(0, |at| at + 1)];
    let mut followed = Followed { book: Book::fresh(), done: 0, unknown: Vec::new() };
    let mut answered = 0;
    for (line, answer) in script.iter().zip(whole.lines()) {
        answered += 1;
        let text = &line.text;
        if answer.starts_with("not done: ") {
            if answer.ends_with("it is not known whether it is on the disk") {
                followed.unknown.push(line.clone());
            }
            continue;
        }
        let mut next = followed.book.clone();
        let number = line.number(&mut next);
        let right = match number {
            0 if line.changes() => {
                answer == format!("done: {text}") || answer.starts_with(&format!("done: {text}; "))
            }
            0 => !answer.contains(": refused by "),
            number => answer.contains(&format!("{text}: refused by {number}: ")),
        };
        if !right {
            return Err(format!(
                "`{text}` is answered {answer:?}, the second engine says {number}"
            ));
        }
        if number == 0 && line.changes() {
            followed.book = next;
            followed.done += 1;
        }
    }
    if whole.lines().count() > script.len() {
        return Err("there are more answers than lines".to_string());
    }
    followed.unknown.extend_from_slice(&script[answered..]);
    Ok(followed)
}

impl Followed {
    /// Is this the book after what was answered, or after up to so many more of the calls of which nothing
    /// is known? Answers how many.
    pub fn more(&self, book: &settlement_day::Book, most: usize) -> Option<usize> {
        let mut next = self.book.clone();
        let mut more = 0;
        if same_numbers(&next, book) {
            return Some(0);
        }
        for line in self.unknown.iter().filter(|line| line.changes()) {
            if line.number(&mut next) != 0 {
                continue;
            }
            more += 1;
            if more > most {
                return None;
            }
            if same_numbers(&next, book) {
                return Some(more);
            }
        }
        None
    }
}
