//! What the book will refuse of a tape, without running the program: a line or an object for each refusal.

use crate::batch::{Batch, Made};
use crate::facts::{Fact, Told};
use crate::input::{Day, Stands};
use crate::json;
use crate::known::Known;
use crate::measure::{counted, Grouped};
use crate::output::Untold;
use crate::progress::Meter;
use crate::story::{quotes_of, Sink};
use crate::text::why_ended;
use crate::why::why;
use settlement_day::Book;

/// How many instructions there are, and how many refusals were told.
#[derive(Clone, Copy, Debug, Default, PartialEq, Eq)]
pub struct Checked {
    pub instructions: usize,
    pub refused: usize,
}

impl Checked {
    /// For people.
    pub fn text(&self) -> String {
        let Checked { instructions, refused } = *self;
        let refused = Grouped(refused as i128);
        format!("{}, {refused} refused\n", counted(instructions, "instruction"))
    }

    /// The same as an object of JSON.
    pub fn json(&self) -> String {
        json::fact("checked", |object| {
            object.field("instructions", self.instructions).field("refused", self.refused);
        })
    }
}

/// Makes every call on a fresh book and tells each refusal: an instruction, or that reading ends.
pub fn check(day: &Day, tell: &mut Sink) -> Result<Checked, Untold> {
    let (mut book, mut batch) = (Book::fresh(), Batch::default());
    let mut known = Known::of(&day.names);
    let mut checked = Checked::default();
    let (mut reading, mut meter) = (day.reading(), Meter::of_words(day.words()));
    while reading.more()? {
        if let Err(refusal) = batch.make(&mut book, reading.words(), |_, _| false) {
            let (word, why) = (Some(reading.word()), why_ended(reading.words(), refusal));
            let (stands, fact) = (reading.stands(), Fact::ReadingEnds { refusal, why });
            checked.refused += 1;
            tell(&Told { day: book.day, word, stands, fact: &fact, known: &known })?;
            break;
        }
        checked.instructions += batch.len();
        meter.after(batch.len(), reading.word());
        while let Some(Made { instruction, count, refusal }) = batch.next() {
            if let Some(refusal) = refusal {
                let (word, stands) = (Some(reading.word()), reading.stands());
                let book = batch.refused_on(&book);
                let quotes = quotes_of(&instruction, reading.words());
                let why = why(book, &instruction, &quotes, refusal, &known);
                let fact = Fact::Instruction { instruction, refusal: Some((refusal, why)) };
                checked.refused += 1;
                tell(&Told { day: book.day, word, stands, fact: &fact, known: &known })?;
            } else {
                known.done(&instruction);
            }
            reading.pass(count);
        }
    }
    Ok(checked)
}

/// A refusal for people, in a line with the place in the file.
pub fn line(told: &Told) -> String {
    let place = place(told);
    match told.fact {
        Fact::Instruction { instruction, refusal: Some((_, why)) } => {
            format!("{place}: {}: {why}", instruction.name())
        }
        Fact::ReadingEnds { refusal, why } => {
            format!("{place}: reading ends here: refused by {}: {why}", refusal.number())
        }
        _ => place,
    }
}

/// The place of the instruction of a fact: file, line and column, or file and word.
fn place(told: &Told) -> String {
    match told.stands {
        Stands { file: Some(file), line: Some(line), column: Some(column) } => {
            format!("{file}:{line}:{column}")
        }
        Stands { file, .. } => {
            format!("{}: word {}", file.unwrap_or_default(), told.word.unwrap_or_default())
        }
    }
}

#[cfg(test)]
mod tests {
    use super::*;
    use crate::input::Taken;

    /// What is found.
    struct Found {
        refusals: Vec<String>,
        instructions: usize,
    }

    fn found(file: &str, bytes: &[u8]) -> Found {
        let day = Day::of(file, bytes.to_vec(), Taken::Apart).unwrap();
        let mut refusals = Vec::new();
        let mut tell = |told: &Told| {
            refusals.push(line(told));
            Ok(())
        };
        let Checked { instructions, refused } = check(&day, &mut tell).unwrap();
        assert_eq!(refused, refusals.len());
        Found { refusals, instructions }
    }

    fn checked(text: &str) -> Found {
        found("day.txt", text.as_bytes())
    }

    #[test]
    fn refusals_name_their_lines_and_why() {
        let found = checked(
            "trade 0 1 1 5\ntrade 0 1 2 5 # good\n\ndeliver 0 1 2\n close\ndeliver 0 1 6\ncutoff\n\
             resolve 0 1 6\nroll 13 0 1\n",
        );
        let expected = [
            "day.txt:1:1: trade: refused by 6: from and to are the same account",
            "day.txt:4:1: deliver: refused by 3: this is not the call's phase; the book is in \
             Taking, deliver belongs to Settling",
            "day.txt:6:1: deliver: refused by 9: the account does not owe that many lots; account \
             1 still owes 5 lots of issue 0 today",
            "day.txt:8:1: resolve: refused by 9: the account does not owe that many lots; account \
             1 owes 5 lots of issue 0 in the ledger",
        ];
        assert_eq!(found.refusals[..4], expected);
        assert!(found.refusals[4].starts_with("day.txt:9:1: roll: refused by 11: "));
        assert_eq!((found.refusals.len(), found.instructions), (5, 8));
    }

    #[test]
    fn a_net_is_told_in_threes() {
        let found = checked("trade 0 1 2 20000000\ntrade 0 1 3 1\n");
        assert!(found.refusals[0].ends_with("; account 1 stands at -20,000,000, account 3 at 0"));
    }

    #[test]
    fn refusals_of_a_roll_name_the_number() {
        let mut day = "close\ncutoff\n".to_string();
        let rolls = [
            ("roll 13 10001 0 accrued 0", "days are 13"),
            ("roll 12 10001 0 accrued 0", "the rate is 10,001"),
            ("roll 12 10000 0 accrued 5", "the price of issue 0 is 0"),
            ("roll 12 10000 1 accrued 10001", "the accrued amount of issue 0 is 10,001"),
            (
                "roll 1 0 190000 accrued 0 0 0 0 0 0 0 0 0 0 0 0 0 0 0 10000\n\
                 close\ncutoff\nroll 1 0 190001 accrued 0 0 0 0 0 0 0 0 0 0 0 0 0 0 0 10000",
                "price and accrued amount of issue 15 are together 200,001",
            ),
        ];
        rolls.iter().for_each(|(roll, _)| day.push_str(&format!("{roll}\n")));
        let found = checked(&day);
        assert_eq!(found.refusals.len(), rolls.len());
        for (refusal, (_, behind)) in found.refusals.iter().zip(rolls) {
            assert!(refusal.contains("roll: refused by 11: ") && refusal.ends_with(behind));
        }
    }

    #[test]
    fn refusals_of_a_marked_issue_say_what_is_in_the_way() {
        let found = checked(
            "mark 3 1\ntrade 3 1 2 5\ntrade 3 1 2 6\ntrade 3 4 2 2\nmark 3 0\nclose\ndeliver 3 1 1\n\
             cutoff\nresolve 3 1 3\nroll 1 0 1\nmark 3 1\nmark 4 1\n",
        );
        let odd = "refused by 19: lots are odd in a marked issue; issue 3 is in multiples of \
                   100,000 yen face: give even lots";
        let in_use = "mark: refused by 20: the issue has a net or an entry; issue 3 has";
        let expected = [
            format!("day.txt:2:1: trade: {odd}"),
            format!("day.txt:5:1: {in_use} nets of 3 accounts and 0 entries in the ledger"),
            format!("day.txt:7:1: deliver: {odd}"),
            format!("day.txt:9:1: resolve: {odd}"),
            format!("day.txt:11:1: {in_use} nets of 0 accounts and 2 entries in the ledger"),
        ];
        assert_eq!((found.refusals, found.instructions), (expected.to_vec(), 12));
    }

    #[test]
    fn refusals_of_a_turn_say_which_half() {
        let found =
            checked("turn 0\nturn 1\nclose\ncutoff\nroll 1 0 1 accrued 0\nturn 1\nturn 5\n");
        let said = "turn: refused by 26: the day is not after today, or the new order is in force";
        let expected = [
            format!("day.txt:1:1: {said}; today is day 0"),
            format!("day.txt:6:1: {said}; full units are dealt in turn since day 1"),
            format!("day.txt:7:1: {said}; full units are dealt in turn since day 1"),
        ];
        assert_eq!((found.refusals, found.instructions), (expected.to_vec(), 7));
    }

    #[test]
    fn the_counts_in_words_and_as_json() {
        let checked = Checked { instructions: 1_234, refused: 1 };
        assert_eq!(checked.text(), "1,234 instructions, 1 refused\n");
        let json = "{\"schema\":1,\"fact\":\"checked\",\"instructions\":1234,\"refused\":1}\n";
        assert_eq!(checked.json(), json);
    }

    #[test]
    fn a_good_day_has_nothing_to_tell() {
        let found = checked("trade 0 1 2 5\nclose\ncutoff\nroll 1 300 100000\n");
        assert_eq!((found.refusals.len(), found.instructions), (0, 4));
    }

    #[test]
    fn where_reading_ends_is_told() {
        let text = checked("close\nword 50000001\ncutoff\n");
        assert_eq!(text.instructions, 1);
        assert!(text.refusals[0].starts_with("day.txt:2:1: reading ends here: refused by 14"));
        let words = found("day.tape", &[0, 0, 0, 0x50, 1]);
        assert!(words.refusals[0].starts_with("day.tape: word 1: reading ends here: refused by 13"));
    }
}
