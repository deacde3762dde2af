//! Random tapes: days with ties and partial units, refused calls, damaged and cut tapes.

use crate::books::{Shape, MENU};
use crate::engines::by_reference_on_sound;
use crate::random_calls::random_call;
use crate::rng::Rng;
use crate::steps::Call;
use reference::book::Book;
use reference::questions::WRITER_OUTPUT;
use reference::tape::{self, Instruction};

/// The most instructions of a small tape.
const SMALL: u32 = 250;

/// A small tape: whole, of any words, or damaged.
pub fn small_tape(rng: &mut Rng) -> Vec<u8> {
    match rng.range(0, 19) {
        0 => (0..rng.range(0, 60)).map(|_| rng.next_u32() as u8).collect(),
        1..=6 => {
            let instructions = rng.range(1, 40);
            let tape = day_tape(rng, instructions, true);
            damaged(rng, tape)
        }
        _ => {
            let instructions = rng.range(1, SMALL);
            day_tape(rng, instructions, true)
        }
    }
}

/// A whole tape of days, of so many instructions.
pub fn day_tape(rng: &mut Rng, instructions: u32, few: bool) -> Vec<u8> {
    let mut shape = Shape::few(rng);
    if !few {
        shape.issues = (0..16).collect();
        shape.accounts = (0..64).collect();
        shape.menu = MENU.to_vec();
    }
    tape_from(rng, &shape, Book::fresh(), instructions)
}

/// A whole tape of so many instructions for a sound book of a shape.
pub fn tape_from(rng: &mut Rng, shape: &Shape, mut book: Book, instructions: u32) -> Vec<u8> {
    let mut output = vec![0; 4_096];
    let mut tape = Vec::new();
    let mut made = 0;
    while made < instructions {
        let call = random_call(rng, shape, &book);
        if let Some(words) = words_of(&call) {
            tape.extend(words.iter().flat_map(|word| word.to_le_bytes()));
            by_reference_on_sound(&mut book, &call, &mut output);
            made += 1;
        }
    }
    tape
}

/// The words of a call that a tape can hold.
pub fn words_of(call: &Call) -> Option<Vec<u32>> {
    let none: &[u32] = &[];
    let (instruction, quotes) = match *call {
        Call::Sound
        | Call::Unit { .. }
        | Call::Status { .. }
        | Call::Ask { .. }
        | Call::Commit { .. } => return None,
        Call::Trade { issue, from, to, lots } => {
            (Instruction::Trade { issue, from, to, lots }, none)
        }
        Call::Close => (Instruction::Close, none),
        Call::Deliver { issue, account, lots, .. } => {
            (Instruction::Deliver { issue, account, lots }, none)
        }
        Call::Cutoff { .. } => (Instruction::Cutoff, none),
        Call::Resolve { issue, account, lots, .. } => {
            (Instruction::Resolve { issue, account, lots }, none)
        }
        Call::PairOff { issue, account } => (Instruction::PairOff { issue, account }, none),
        Call::Mark { issue, mark } => (Instruction::Mark { issue, mark }, none),
        Call::Turn { day } => (Instruction::Turn { day }, none),
        Call::Roll { days, rate, ref quotes } => {
            (Instruction::Roll { days, rate }, quotes.as_slice())
        }
    };
    let mut words = vec![0; WRITER_OUTPUT];
    let answer = tape::write(&instruction, quotes, &mut words);
    words.truncate(answer.count as usize);
    (answer.number == 0).then_some(words)
}

/// The call of an instruction that some words begin with.
pub fn call_of(instruction: &Instruction, words: &[u32]) -> Call {
    let out = 0;
    match *instruction {
        Instruction::Trade { issue, from, to, lots } => Call::Trade { issue, from, to, lots },
        Instruction::Close => Call::Close,
        Instruction::Deliver { issue, account, lots } => {
            Call::Deliver { issue, account, lots, out }
        }
        Instruction::Cutoff => Call::Cutoff { out },
        Instruction::Resolve { issue, account, lots } => {
            Call::Resolve { issue, account, lots, out }
        }
        Instruction::PairOff { issue, account } => Call::PairOff { issue, account },
        Instruction::Mark { issue, mark } => Call::Mark { issue, mark },
        Instruction::Turn { day } => Call::Turn { day },
        Instruction::Roll { days, rate } => {
            Call::Roll { days, rate, quotes: tape::quotes(words).to_vec() }
        }
    }
}

/// The tape cut short, with stray bytes, with a bit turned, or with a word put in or left out.
pub fn damaged(rng: &mut Rng, mut tape: Vec<u8>) -> Vec<u8> {
    let at = rng.range(0, tape.len() as u32 - 1) as usize;
    let word = at / 4 * 4;
    match rng.range(0, 5) {
        0 => tape.truncate(at),
        1 => tape.extend((0..rng.range(1, 3)).map(|_| rng.next_u32() as u8)),
        2 => tape[at] ^= 1 << rng.range(0, 7),
        3 => {
            let random = rng.next_u32().to_le_bytes();
            tape.splice(word..word, random);
        }
        4 => {
            tape.drain(word..word + 4);
        }
        _ => {
            tape.drain(at..=at);
        }
    }
    tape
}

#[cfg(test)]
mod tests {
    use super::*;

    #[test]
    fn tapes_have_calls_that_are_done_and_refused() {
        let mut text = String::new();
        for case in 0..100 {
            text.push_str(&reference::run::run(&small_tape(&mut Rng::of_case(1, case))));
        }
        for line in [
            "deliver 0 2",
            "cutoff 0 3",
            "pair-off 0 1",
            "tape 13 0",
            "tape 14 0",
            "roll 0 0",
            "mark 0 0",
            "mark 20 0",
            "turn 0 0",
            "turn 26 0",
            "trade 19 0",
            "deliver 19 0",
            "resolve 19 0",
        ] {
            assert!(text.contains(line), "{line}");
        }
    }
}
