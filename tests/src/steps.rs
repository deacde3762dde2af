//! The steps of a case: calls and questions, and fields of the book set by hand.
//!
//! A case is a list of steps on a fresh book. Its text has one step after another with `;`
//! between them, and can be replayed.

use crate::convert::lift_words;
use reference::book::{place, Book, Entry, Phase, ACCOUNTS, ENTRIES, ISSUES};
use reference::calls::Ticket;
use settlement_day::LIFT_WORDS;
use std::fmt;
use std::str::FromStr;

/// One step of a case.
#[derive(Clone, Debug, PartialEq, Eq)]
pub enum Step {
    Set(Edit),
    Call(Call),
}

/// A field of the book set by hand, in range or not.
#[derive(Clone, Copy, Debug, PartialEq, Eq)]
pub enum Edit {
    Day(u16),
    Phase(Phase),
    Net {
        issue: usize,
        account: usize,
        lots: i32,
    },
    Delivered {
        issue: usize,
        account: usize,
        lots: u32,
    },
    /// One of an issue's words of lifts: their number, the count, then old and new places.
    Lifts {
        issue: usize,
        word: usize,
        number: u32,
    },
    /// An issue's mark: any number but 0 is one.
    Mark {
        issue: usize,
        mark: u8,
    },
    /// The change-over day: 0 is none.
    Turn(u32),
    Charge {
        account: usize,
        yen: i64,
    },
    Count(usize),
    /// The entries at these places, used or not, the last not included.
    Entries {
        first: usize,
        end: usize,
        entry: Entry,
    },
}

/// A call with its arguments and the length of its output, or a question.
#[derive(Clone, Debug, PartialEq, Eq)]
pub enum Call {
    Sound,
    Unit { issue: u32, k: u32 },
    Status { issue: u32, k: u32 },
    Trade { issue: u32, from: u32, to: u32, lots: u32 },
    Close,
    Deliver { issue: u32, account: u32, lots: u32, out: usize },
    Ask { issue: u32, unit: u32 },
    Commit { ticket: Ticket, out: usize },
    Cutoff { out: usize },
    Resolve { issue: u32, account: u32, lots: u32, out: usize },
    PairOff { issue: u32, account: u32 },
    Roll { days: u32, rate: u32, quotes: Vec<u32> },
    Mark { issue: u32, mark: u32 },
    Turn { day: u32 },
}

impl Edit {
    /// Sets the field.
    pub fn apply(&self, book: &mut Book) {
        match *self {
            Edit::Day(day) => book.day = day,
            Edit::Phase(phase) => book.phase = phase,
            Edit::Net { issue, account, lots } => book.nets[place(issue, account)] = lots,
            Edit::Delivered { issue, account, lots } => {
                book.delivered[place(issue, account)] = lots;
            }
            Edit::Lifts { issue, word, number } => *lift_word(book, issue, word) = number,
            Edit::Mark { issue, mark } => book.marks[issue] = mark,
            Edit::Turn(day) => book.turn = day,
            Edit::Charge { account, yen } => book.charges[account] = yen,
            Edit::Count(count) => book.count = count,
            Edit::Entries { first, end, entry } => {
                (first..end).for_each(|at| set_entry(book, at, entry));
            }
        }
    }
}

/// One of an issue's words of lifts.
pub fn lift_word(book: &mut Book, issue: usize, word: usize) -> &mut u32 {
    let lifts = &mut book.lifts[issue];
    match word {
        0 => &mut lifts.number,
        1 => &mut lifts.count,
        _ if word % 2 == 0 => &mut lifts.moves[word / 2 - 1].old,
        _ => &mut lifts.moves[word / 2 - 1].new,
    }
}

/// Sets the entry at one place of the ledger, used or not.
pub fn set_entry(book: &mut Book, at: usize, entry: Entry) {
    book.issues[at] = entry.issue;
    book.froms[at] = entry.from;
    book.tos[at] = entry.to;
    book.lots[at] = entry.lots;
    book.days[at] = entry.day;
}

/// The entry at one place of the ledger, used or not.
pub fn entry_at(book: &Book, at: usize) -> Entry {
    Entry {
        issue: book.issues[at],
        from: book.froms[at],
        to: book.tos[at],
        lots: book.lots[at],
        day: book.days[at],
    }
}

/// The steps that make this book out of a fresh one.
pub fn steps_to(book: &Book) -> Vec<Step> {
    let fresh = Book::fresh();
    let mut edits = vec![Edit::Day(book.day), Edit::Phase(book.phase), Edit::Count(book.count)];
    let marked = (0..ISSUES).filter(|&issue| book.is_marked(issue));
    edits.extend(marked.map(|issue| Edit::Mark { issue, mark: book.marks[issue] }));
    edits.extend((book.turn != 0).then_some(Edit::Turn(book.turn)));
    for (issue, account) in (0..ISSUES).flat_map(|i| (0..ACCOUNTS).map(move |a| (i, a))) {
        let at = place(issue, account);
        if book.nets[at] != 0 {
            edits.push(Edit::Net { issue, account, lots: book.nets[at] });
        }
        if book.delivered[at] != 0 {
            edits.push(Edit::Delivered { issue, account, lots: book.delivered[at] });
        }
    }
    edits.extend(lift_edits(book));
    let charges = (0..ACCOUNTS).filter(|&account| book.charges[account] != 0);
    edits.extend(charges.map(|account| Edit::Charge { account, yen: book.charges[account] }));
    let mut at = 0;
    while at < ENTRIES {
        let entry = entry_at(book, at);
        let end = (at..ENTRIES).find(|&next| entry_at(book, next) != entry).unwrap_or(ENTRIES);
        if entry != entry_at(&fresh, at) {
            edits.push(Edit::Entries { first: at, end, entry });
        }
        at = end;
    }
    edits.into_iter().map(Step::Set).collect()
}

/// The edits that set the words of lifts that are not 0.
fn lift_edits(book: &Book) -> Vec<Edit> {
    let words = lift_words(&book.lifts);
    let edits = words.iter().enumerate().filter(|(_, &number)| number != 0);
    let edit =
        |(at, &number)| Edit::Lifts { issue: at / LIFT_WORDS, word: at % LIFT_WORDS, number };
    edits.map(edit).collect()
}

impl Call {
    /// The call's name.
    pub fn name(&self) -> &'static str {
        match self {
            Call::Sound => "sound",
            Call::Unit { .. } => "unit",
            Call::Status { .. } => "status",
            Call::Trade { .. } => "trade",
            Call::Close => "close",
            Call::Deliver { .. } => "deliver",
            Call::Ask { .. } => "ask",
            Call::Commit { .. } => "commit",
            Call::Cutoff { .. } => "cutoff",
            Call::Resolve { .. } => "resolve",
            Call::PairOff { .. } => "pair-off",
            Call::Roll { .. } => "roll",
            Call::Mark { .. } => "mark",
            Call::Turn { .. } => "turn",
        }
    }
}

impl fmt::Display for Step {
    fn fmt(&self, text: &mut fmt::Formatter) -> fmt::Result {
        match self {
            Step::Set(edit) => write!(text, "set {edit}"),
            Step::Call(call) => write!(text, "{call}"),
        }
    }
}

impl fmt::Display for Edit {
    fn fmt(&self, text: &mut fmt::Formatter) -> fmt::Result {
        match self {
            Edit::Day(day) => write!(text, "day {day}"),
            Edit::Phase(phase) => write!(text, "phase {}", phase_name(*phase)),
            Edit::Net { issue, account, lots } => write!(text, "net {issue} {account} {lots}"),
            Edit::Delivered { issue, account, lots } => {
                write!(text, "delivered {issue} {account} {lots}")
            }
            Edit::Lifts { issue, word, number } => write!(text, "lifts {issue} {word} {number}"),
            Edit::Mark { issue, mark } => write!(text, "mark {issue} {mark}"),
            Edit::Turn(day) => write!(text, "turn {day}"),
            Edit::Charge { account, yen } => write!(text, "charge {account} {yen}"),
            Edit::Count(count) => write!(text, "count {count}"),
            Edit::Entries { first, end, entry } => {
                let Entry { issue, from, to, lots, day } = entry;
                write!(text, "entries {first} {end} {issue} {from} {to} {lots} {day}")
            }
        }
    }
}

impl fmt::Display for Call {
    fn fmt(&self, text: &mut fmt::Formatter) -> fmt::Result {
        text.write_str(self.name())?;
        match self {
            Call::Sound | Call::Close => Ok(()),
            Call::Unit { issue, k } | Call::Status { issue, k } => write!(text, " {issue} {k}"),
            Call::Trade { issue, from, to, lots } => write!(text, " {issue} {from} {to} {lots}"),
            Call::Deliver { issue, account, lots, out }
            | Call::Resolve { issue, account, lots, out } => {
                write!(text, " {issue} {account} {lots} out {out}")
            }
            Call::Ask { issue, unit } => write!(text, " {issue} {unit}"),
            Call::Commit { ticket: Ticket { issue, unit, account, lots, day, count }, out } => {
                write!(text, " {issue} {unit} {account} {lots} {day} {count} out {out}")
            }
            Call::Cutoff { out } => write!(text, " out {out}"),
            Call::PairOff { issue, account } => write!(text, " {issue} {account}"),
            Call::Mark { issue, mark } => write!(text, " {issue} {mark}"),
            Call::Turn { day } => write!(text, " {day}"),
            Call::Roll { days, rate, quotes } => {
                write!(text, " {days} {rate}")?;
                quotes.iter().try_for_each(|quote| write!(text, " {quote}"))
            }
        }
    }
}

/// The text of a case: its steps with `;` between them.
pub fn text_of(steps: &[Step]) -> String {
    steps.iter().map(Step::to_string).collect::<Vec<_>>().join("; ")
}

/// Reads a case: steps with `;` or line ends between them.
pub fn parse(text: &str) -> Result<Vec<Step>, String> {
    let steps = text.split([';', '\n']).map(str::trim).filter(|step| !step.is_empty());
    steps.map(|step| step_of(step).map_err(|error| format!("step `{step}`: {error}"))).collect()
}

/// Reads one step.
fn step_of(text: &str) -> Result<Step, String> {
    let mut words = Words(text.split_whitespace().collect(), 0);
    let name = words.word()?;
    let step = if name == "set" {
        Step::Set(edit_of(&mut words)?)
    } else {
        Step::Call(call_of(name, &mut words)?)
    };
    words.end().map(|()| step)
}

/// Reads the field that is set and its value.
fn edit_of(words: &mut Words) -> Result<Edit, String> {
    Ok(match words.word()? {
        "day" => Edit::Day(words.number()?),
        "phase" => Edit::Phase(phase_of(words.word()?)?),
        "net" => Edit::Net {
            issue: words.below(ISSUES)?,
            account: words.below(ACCOUNTS)?,
            lots: words.number()?,
        },
        "delivered" => Edit::Delivered {
            issue: words.below(ISSUES)?,
            account: words.below(ACCOUNTS)?,
            lots: words.number()?,
        },
        "lifts" => Edit::Lifts {
            issue: words.below(ISSUES)?,
            word: words.below(LIFT_WORDS)?,
            number: words.number()?,
        },
        "mark" => Edit::Mark { issue: words.below(ISSUES)?, mark: words.number()? },
        "turn" => Edit::Turn(words.number()?),
        "charge" => Edit::Charge { account: words.below(ACCOUNTS)?, yen: words.number()? },
        "count" => Edit::Count(words.number()?),
        "entries" => Edit::Entries {
            first: words.below(ENTRIES)?,
            end: words.below(ENTRIES + 1)?,
            entry: Entry {
                issue: words.number()?,
                from: words.number()?,
                to: words.number()?,
                lots: words.number()?,
                day: words.number()?,
            },
        },
        other => return Err(format!("there is no field {other:?} to set")),
    })
}

/// Reads the arguments of a call or question.
fn call_of(name: &str, words: &mut Words) -> Result<Call, String> {
    Ok(match name {
        "sound" => Call::Sound,
        "unit" => Call::Unit { issue: words.number()?, k: words.number()? },
        "status" => Call::Status { issue: words.number()?, k: words.number()? },
        "trade" => Call::Trade {
            issue: words.number()?,
            from: words.number()?,
            to: words.number()?,
            lots: words.number()?,
        },
        "close" => Call::Close,
        "deliver" => {
            let (issue, account, lots) = (words.number()?, words.number()?, words.number()?);
            Call::Deliver { issue, account, lots, out: words.out()? }
        }
        "ask" => Call::Ask { issue: words.number()?, unit: words.number()? },
        "commit" => Call::Commit { ticket: words.ticket()?, out: words.out()? },
        "cutoff" => Call::Cutoff { out: words.out()? },
        "resolve" => {
            let (issue, account, lots) = (words.number()?, words.number()?, words.number()?);
            Call::Resolve { issue, account, lots, out: words.out()? }
        }
        "pair-off" => Call::PairOff { issue: words.number()?, account: words.number()? },
        "mark" => Call::Mark { issue: words.number()?, mark: words.number()? },
        "turn" => Call::Turn { day: words.number()? },
        "roll" => {
            Call::Roll { days: words.number()?, rate: words.number()?, quotes: words.rest()? }
        }
        other => return Err(format!("there is no call {other:?}")),
    })
}

/// The words of a step, and how many of them were read.
struct Words<'a>(Vec<&'a str>, usize);

impl<'a> Words<'a> {
    /// The next word.
    fn word(&mut self) -> Result<&'a str, String> {
        self.1 += 1;
        self.0.get(self.1 - 1).copied().ok_or_else(|| "a number or name is missing".to_string())
    }

    /// The next word as a number.
    fn number<T: FromStr>(&mut self) -> Result<T, String> {
        let word = self.word()?;
        word.parse().map_err(|_| format!("{word:?} is not a number in range"))
    }

    /// The next word as a place below a limit.
    fn below(&mut self, limit: usize) -> Result<usize, String> {
        let place = self.number()?;
        if place < limit {
            return Ok(place);
        }
        Err(format!("{place} is not below {limit}"))
    }

    /// The six numbers of a ticket.
    fn ticket(&mut self) -> Result<Ticket, String> {
        Ok(Ticket {
            issue: self.number()?,
            unit: self.number()?,
            account: self.number()?,
            lots: self.number()?,
            day: self.number()?,
            count: self.number()?,
        })
    }

    /// `out` and the length of the output.
    fn out(&mut self) -> Result<usize, String> {
        match self.word()? {
            "out" => self.number(),
            other => Err(format!("`out` and the output's length are wanted, not {other:?}")),
        }
    }

    /// All words that are left, as numbers.
    fn rest(&mut self) -> Result<Vec<u32>, String> {
        (self.1..self.0.len()).map(|_| self.number()).collect()
    }

    /// No word is left.
    fn end(&self) -> Result<(), String> {
        self.0.get(self.1).map_or(Ok(()), |word| Err(format!("{word:?} is too much")))
    }
}

/// The name of a phase in a case's text.
fn phase_name(phase: Phase) -> &'static str {
    match phase {
        Phase::Taking => "taking",
        Phase::Settling => "settling",
        Phase::Cut => "cut",
    }
}

/// The phase of a name.
fn phase_of(name: &str) -> Result<Phase, String> {
    [Phase::Taking, Phase::Settling, Phase::Cut]
        .into_iter()
        .find(|&phase| phase_name(phase) == name)
        .ok_or_else(|| format!("{name:?} is no phase: there are taking, settling and cut"))
}

#[cfg(test)]
mod tests {
    use super::*;

    #[test]
    fn every_step_is_read_back() {
        let text = "set day 65535; set phase cut; set net 15 63 -20000001; \
            set delivered 0 1 4294967295; set lifts 15 17 4294967295; set mark 15 255; set turn 4294967295; set charge 63 -9223372036854775808; \
            set count 18446744073709551615; set entries 0 2048 255 255 255 4294967295 65535; \
            sound; unit 16 4294967295; status 15 3; trade 0 1 2 3; close; deliver 0 5 345000 out 4096; \
            ask 0 7; commit 0 7 1 30000 0 2 out 4096; cutoff out 0; resolve 1 2 3 out 4095; pair-off 0 2; mark 16 4294967295; turn 4294967295; roll 1 300 1 2 3; roll 1 2";
        assert_eq!(text_of(&parse(text).unwrap()), text);
    }

    #[test]
    fn wrong_steps_are_named() {
        for text in [
            "sell 1 2",
            "trade 1 2 3",
            "close 1",
            "set net 16 0 1",
            "cutoff 4096",
            "commit 0 7",
            "set mark 0 256",
            "mark 3",
            "turn",
            "turn 4294967296",
            "set turn -1",
        ] {
            assert!(parse(text).unwrap_err().contains(text), "{text}");
        }
    }

    #[test]
    fn a_book_is_made_by_its_steps() {
        let steps = "set day 7; set phase settling; set count 3; set mark 0 1; set mark 15 128; set turn 7; set net 0 1 -5; \
            set delivered 0 1 3; set net 0 2 5; set lifts 0 0 1; set lifts 0 1 2; \
            set lifts 15 16 3; set lifts 15 17 4; set charge 0 -4; set charge 1 4; set entries 0 2 0 1 2 3 4; \
            set entries 2 3 0 1 2 3 7";
        let mut book = Book::fresh();
        for step in parse(steps).unwrap() {
            let Step::Set(edit) = step else { unreachable!() };
            edit.apply(&mut book);
        }
        assert_eq!(text_of(&steps_to(&book)), steps);
    }
}
