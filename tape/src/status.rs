//! Why a unit has not come: the tape is run up to a moment, and the book is asked.

use crate::dealt::{Dealt, Turn};
use crate::input::Day;
use crate::json::{self, Name, Object};
use crate::known::Known;
use crate::measure::{Face, Lots};
use crate::standing::{run, At, When};
use settlement_day::calls::{self, Unit};
use settlement_day::{Book, Refusal, Status, ISSUES};
use std::io::Write;

/// The fact that the objects of a unit are.
pub const FACT: &str = "status";
/// Why the book does not tell while trades are taken.
pub const NOT_SETTLED: &str = "trades are taken, no unit is settled yet";

/// Which unit is asked of, and when.
#[derive(Clone, Copy, Debug, Default, PartialEq, Eq)]
pub struct Question {
    pub issue: u32,
    pub unit: u32,
    pub when: When,
}

/// A unit and what the book tells of it.
#[derive(Clone, Copy, Debug, PartialEq, Eq)]
pub struct Asked {
    pub issue: u32,
    pub number: u32,
    pub unit: Unit,
    /// Where the unit stands, if it is a full one dealt in turn.
    pub turn: Option<Turn>,
    pub status: Status,
}

/// What the book tells, and where the tape stood.
#[derive(Clone, Debug, PartialEq, Eq)]
pub struct Told {
    question: Question,
    at: At,
    /// The moment in words.
    moment: String,
    known: Known,
    answer: Result<Asked, (Refusal, String)>,
}

/// Runs a tape on a fresh book and asks; an error is that there is no such moment.
pub fn ask(day: &Day, question: Question) -> Result<Told, String> {
    let stood = run(day, question.when)?;
    let book = &stood.book;
    let Question { issue, unit: k, .. } = question;
    let found = calls::unit(book, issue, k).and_then(|unit| unit.ok_or(Refusal::Unit));
    let told = calls::status(book, issue, k).and_then(|status| found.map(|unit| (unit, status)));
    let answer = match told {
        Ok((unit, status)) => {
            let dealt = book.deals_in_turn().then(|| Dealt::of(book, issue));
            let turn = dealt.and_then(|dealt| dealt.turn_of(k)).map(|(_, turn)| turn);
            Ok(Asked { issue, number: k, unit, turn, status })
        }
        Err(refusal) => Err((refusal, why_refused(book, question, refusal, &stood.known))),
    };
    let (at, moment) = (stood.at(), stood.moment());
    Ok(Told { question, at, moment, known: stood.known, answer })
}

/// Why the book does not tell, with the numbers behind it.
fn why_refused(book: &Book, question: Question, refusal: Refusal, known: &Known) -> String {
    let Question { issue, unit, .. } = question;
    let named = known.issue(issue);
    match refusal {
        Refusal::Phase => NOT_SETTLED.to_string(),
        Refusal::Issue => format!("there is no issue {issue}, issues are 0 to {}", ISSUES - 1),
        Refusal::Unit => match (0..)
            .take_while(|&k| matches!(calls::unit(book, issue, k), Ok(Some(_))))
            .last()
        {
            Some(0) => format!("issue {named} has no unit {unit}, its one unit is 0"),
            Some(last) => format!("issue {named} has no unit {unit}, its units are 0 to {last}"),
            None => format!("issue {named} has no units today"),
        },
        other => other.meaning().to_string(),
    }
}

impl Told {
    /// Was it refused?
    pub fn refused(&self) -> bool {
        self.answer.is_err()
    }

    /// A sentence for the telephone.
    pub fn sentence(&self) -> String {
        let (At { day, phase, .. }, known) = (self.at, &self.known);
        let head = format!("{}, day {}, {phase}", self.moment, known.day(day));
        match &self.answer {
            Ok(Asked { issue, number, unit, turn, status }) => {
                let turn = turn.map_or(String::new(), |turn| format!(" ({})", turn.words()));
                let (lots, account) = (Face(unit.lots.into()), known.account(unit.account));
                let issue = known.issue(*issue);
                let of =
                    format!("unit {number} of issue {issue}, {lots} for account {account}{turn}");
                format!("{head}: {of}, {}\n", phrase(status, false))
            }
            Err((refusal, why)) => format!("{head}: refused by {}: {why}\n", refusal.number()),
        }
    }

    /// The same as an object of JSON.
    pub fn json(&self) -> String {
        let Question { issue, unit, .. } = self.question;
        json::fact_by(&self.known, FACT, |object| {
            self.at.tell(object);
            match &self.answer {
                Ok(asked) => tell_unit(object, asked),
                Err((refusal, why)) => {
                    object.issue(issue).field("unit", unit);
                    object.field("refusal", refusal.number()).field("why", why.as_str());
                }
            }
        })
    }
}

/// What is told of a unit, or of several that are alike.
pub fn phrase(status: &Status, several: bool) -> String {
    match *status {
        Status::Handed => format!("{} handed", if several { "are" } else { "is" }),
        Status::Waiting { lots } => format!(
            "waits: with {} more delivered in the issue, and no lift between, it is handed",
            Lots(lots.into())
        ),
        Status::PartlyFailed { lots } => {
            format!("partly failed: at the cutoff it lacked {}", Face(lots.into()))
        }
        Status::WhollyFailed => {
            let it = if several { "them" } else { "it" };
            format!("wholly failed: at the cutoff nothing of {it} had come")
        }
    }
}

/// The fields of a unit and its status in JSON.
pub fn tell_unit(object: &mut Object<'_, impl Write>, asked: &Asked) {
    let Asked { issue, number, unit, turn, status } = *asked;
    object.issue(issue).field("unit", number).field("refusal", 0_u32);
    object.account("account", unit.account).field("lots", unit.lots);
    if let Some(Turn { round, receiver, of, .. }) = turn {
        object.field("round", round).field("receiver", receiver).field("of", of);
    }
    tell_status(object, &status, unit.lots);
}

/// The fields of the status of a unit of so many lots.
pub fn tell_status(object: &mut Object<'_, impl Write>, status: &Status, lots: u32) {
    match *status {
        Status::Handed => object.field("status", Name("handed")),
        Status::Waiting { lots } => object.field("status", Name("waiting")).field("wants", lots),
        Status::PartlyFailed { lots } => {
            object.field("status", Name("partly failed")).field("lacks", lots)
        }
        Status::WhollyFailed => object.field("status", Name("wholly failed")).field("lacks", lots),
    };
}

#[cfg(test)]
mod tests {
    use super::*;
    use crate::input::Taken;
    use crate::text;

    /// P5 to P8 and a resolve; instructions begin at words 0, 2, 4, 6, 7, 9, 11 and 12.
    fn tape() -> Vec<u8> {
        let lines = "trade 0 4 1 230000\ntrade 0 5 2 250000\ntrade 0 5 3 150000\nclose\n\
            deliver 0 5 345000\ndeliver 0 4 200000\ncutoff\nresolve 0 4 6000\n";
        text::to_tape(lines).unwrap()
    }

    /// Words as a day.
    fn of_words(tape: Vec<u8>) -> Day {
        Day::of("day.tape", tape, Taken::Words).unwrap()
    }

    fn asked(tape: Vec<u8>, issue: u32, unit: u32, at: Option<usize>) -> Result<Told, String> {
        let when = at.map_or(When::End, When::Before);
        ask(&of_words(tape), Question { issue, unit, when })
    }

    fn told(unit: u32, at: Option<usize>) -> Told {
        asked(tape(), 0, unit, at).unwrap()
    }

    #[test]
    fn the_settled_day_in_sentences() {
        let waits = "before word 9, day 0, Settling: unit 3 of issue 0, 100,000 lots \
            (5,000,000,000 yen face) for account 1, waits: with 55,000 lots more delivered in the issue, and no lift between, it is handed\n";
        assert_eq!(told(3, Some(9)).sentence(), waits);
        let partly = "at the end of the tape, day 0, Cut: unit 5 of issue 0, 50,000 lots \
            (2,500,000,000 yen face) for account 2, partly failed: at the cutoff it lacked 5,000 lots (250,000,000 yen face)\n";
        assert_eq!(told(5, None).sentence(), partly);
        assert!(told(6, None)
            .sentence()
            .ends_with("for account 3, wholly failed: at the cutoff nothing of it had come\n"));
        assert!(told(4, None).sentence().ends_with("for account 3, is handed\n"));
        assert!(!told(4, None).refused());
    }

    #[test]
    fn the_settled_day_as_json() {
        let head = |word, phase| {
            format!(
                "{{\"schema\":1,\"fact\":\"status\",\"day\":0,\"phase\":\"{phase}\",\"word\":{word},\
                \"issue\":0,"
            )
        };
        let waits = head(9, "Settling")
            + "\"unit\":3,\"refusal\":0,\"account\":1,\"lots\":100000,\
            \"status\":\"waiting\",\"wants\":55000}\n";
        assert_eq!(told(3, Some(9)).json(), waits);
        let partly = head(14, "Cut")
            + "\"unit\":5,\"refusal\":0,\"account\":2,\"lots\":50000,\
            \"status\":\"partly failed\",\"lacks\":5000}\n";
        assert_eq!(told(5, None).json(), partly);
        assert!(told(7, None).json().ends_with("\"status\":\"wholly failed\",\"lacks\":30000}\n"));
        let missing = head(14, "Cut")
            + "\"unit\":8,\"refusal\":16,\
            \"why\":\"issue 0 has no unit 8, its units are 0 to 7\"}\n";
        assert_eq!(told(8, None).json(), missing);
    }

    #[test]
    fn a_dealt_unit_has_its_round_and_receiver() {
        let lines = "turn 1\nclose\ncutoff\nroll 1 300 100000\ntrade 0 4 1 230000\n\
            trade 0 5 2 250000\ntrade 0 5 3 150000\nclose\ndeliver 0 5 345000\n";
        let tape = text::to_tape(lines).unwrap();
        let of = |unit| asked(tape.clone(), 0, unit, None).unwrap();
        let waits = "for account 2 (round 2, receiver 1 of 2), waits: with 55,000 lots more";
        assert!(of(3).sentence().contains(waits), "{}", of(3).sentence());
        assert!(of(2).sentence().ends_with("account 3 (round 1, receiver 3 of 3), is handed\n"));
        assert!(of(5).sentence().contains("for account 2, waits"), "{}", of(5).sentence());
        let json = of(4).json();
        assert!(json.contains("\"lots\":100000,\"round\":2,\"receiver\":2,\"of\":2,"), "{json}");
    }

    #[test]
    fn refusals_say_what_there_is() {
        let taking = "before word 6, day 0, Taking: refused by 3: trades are taken, no unit is \
            settled yet\n";
        assert_eq!(told(0, Some(6)).sentence(), taking);
        assert!(told(0, Some(6)).refused());
        let of = |issue| asked(tape(), issue, 0, None).unwrap().sentence();
        assert!(of(1).ends_with("refused by 16: issue 1 has no units today\n"));
        let one = text::to_tape("trade 0 1 2 3\nclose\n").unwrap();
        let one = asked(one, 0, 1, None).unwrap().sentence();
        assert!(
            one.ends_with("refused by 16: issue 0 has no unit 1, its one unit is 0\n"),
            "{one}"
        );
        assert!(of(16).ends_with("refused by 4: there is no issue 16, issues are 0 to 15\n"));
    }

    #[test]
    fn a_word_that_begins_no_instruction_is_an_error() {
        let at = |at| asked(tape(), 0, 0, Some(at)).unwrap_err();
        assert!(at(8).ends_with("deliver begins at word 7 and has 2 words"));
        assert_eq!(at(15), "--at 15: reading ends at word 14");
    }

    #[test]
    fn a_damaged_tape_is_asked_where_reading_ends() {
        let mut tape = tape();
        tape.extend([1, 0, 0, 0x50]);
        let told = asked(tape.clone(), 0, 4, None).unwrap().sentence();
        assert!(told.starts_with("where reading ends, at word 14, day 0, Cut: unit 4"), "{told}");
        assert!(asked(tape, 0, 4, Some(14)).is_ok());
    }

    #[test]
    fn the_line_of_a_text_stands_beside_the_word_and_a_day_that_was_can_be_asked() {
        let text = "# a day\ntrade 0 4 1 5\nclose\ncutoff\n\nroll 1 300 100000\ntrade 0 4 1 7\nclose\nword 1\n";
        let day = Day::of("day.txt", text.as_bytes().to_vec(), Taken::Apart).unwrap();
        let of = |when| ask(&day, Question { issue: 0, unit: 0, when }).unwrap();
        let before = of(When::Before(3)).sentence();
        assert!(before.starts_with("before word 3, line 4, day 0, Settling: unit 0"), "{before}");
        let was = of(When::EndOf(0)).sentence();
        assert!(
            was.starts_with("before word 4, line 6, day 0, Cut: unit 0 of issue 0, 5 lots"),
            "{was}"
        );
        let ends = of(When::End).sentence();
        assert!(
            ends.starts_with("where reading ends, at word 40, line 9, day 1, Settling"),
            "{ends}"
        );
        assert!(of(When::EndOf(0)).json().contains("\"word\":4,\"line\":6,\"issue\":0"));
    }
}
