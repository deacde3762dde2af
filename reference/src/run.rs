//! The program: runs a tape of little-endian words and prints what came of each instruction.

use crate::book::{Book, Entry};
use crate::calls::{self, Answer};
use crate::questions::CALL_OUTPUT;
use crate::tape::{self, Instruction};

/// Runs a tape on a fresh book and gives all that `dayrun` prints.
pub fn run(tape: &[u8]) -> String {
    let words = tape.chunks_exact(4);
    let stray = !words.remainder().is_empty();
    let word = |bytes: &[u8]| u32::from_le_bytes([bytes[0], bytes[1], bytes[2], bytes[3]]);
    let words: Vec<u32> = words.map(word).collect();
    let mut book = Book::fresh();
    let mut text = run_words(&words, stray, &mut book);
    text.push_str(&ledger_lines(&book));
    text.push_str(&charge_lines(&book));
    text
}

/// A line for each instruction; a last word of 1 to 3 bytes is a missing word.
fn run_words(words: &[u32], stray: bool, book: &mut Book) -> String {
    let mut text = String::new();
    let mut output = vec![0; CALL_OUTPUT];
    let mut at = 0;
    while at < words.len() || stray {
        match tape::read(&words[at..]) {
            Ok((instruction, count)) => {
                let answer = obey(book, &instruction, &words[at..], &mut output);
                text.push_str(&instruction_line(at, name(&instruction), answer));
                at += count;
            }
            Err(number) => {
                text.push_str(&instruction_line(at, "tape", Answer { number, count: 0 }));
                break;
            }
        }
    }
    text
}

/// Makes the call of an instruction; the count of pair-off is its steps.
pub(crate) fn obey(
    book: &mut Book,
    instruction: &Instruction,
    words: &[u32],
    output: &mut [u32],
) -> Answer {
    match *instruction {
        Instruction::Trade { issue, from, to, lots } => {
            calls::trade_on_sound(book, issue, from, to, lots)
        }
        Instruction::Deliver { issue, account, lots } => {
            calls::deliver_on_sound(book, issue, account, lots, output)
        }
        Instruction::Resolve { issue, account, lots } => {
            calls::resolve_on_sound(book, issue, account, lots, output)
        }
        Instruction::PairOff { issue, account } => {
            let answer = calls::pair_off_on_sound(book, issue, account);
            Answer { number: answer.number, count: answer.steps }
        }
        Instruction::Close => calls::close_on_sound(book),
        Instruction::Cutoff => calls::cutoff_on_sound(book, output),
        Instruction::Roll { days, rate } => {
            calls::roll_on_sound(book, days, rate, &tape::quotes(words))
        }
        Instruction::Mark { issue, mark } => calls::mark_on_sound(book, issue, mark),
        Instruction::Turn { day } => calls::turn_on_sound(book, day),
    }
}

/// The call's name as it is printed.
fn name(instruction: &Instruction) -> &'static str {
    match instruction {
        Instruction::Trade { .. } => "trade",
        Instruction::Deliver { .. } => "deliver",
        Instruction::Resolve { .. } => "resolve",
        Instruction::PairOff { .. } => "pair-off",
        Instruction::Close => "close",
        Instruction::Cutoff => "cutoff",
        Instruction::Roll { .. } => "roll",
        Instruction::Mark { .. } => "mark",
        Instruction::Turn { .. } => "turn",
    }
}

/// Index of the first word, name, refusal number and count.
fn instruction_line(at: usize, name: &str, answer: Answer) -> String {
    format!("{at} {name} {} {}\n", answer.number, answer.count)
}

/// `F` issue from to lots day, for each entry.
fn ledger_lines(book: &Book) -> String {
    let line = |entry: Entry| {
        format!("F {} {} {} {} {}\n", entry.issue, entry.from, entry.to, entry.lots, entry.day)
    };
    book.entries().map(line).collect()
}

/// `C` account yen, for each charge not 0, ascending.
fn charge_lines(book: &Book) -> String {
    let charges = book.charges.iter().enumerate().filter(|(_, &yen)| yen != 0);
    charges.map(|(account, yen)| format!("C {account} {yen}\n")).collect()
}
