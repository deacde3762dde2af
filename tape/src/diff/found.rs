//! The differences of two tapes as they are found, before they are told. A pair is of the first tape, A, and of the
//! second, B.

use super::edits::{Edits, Part};
use super::order::{Order, Parting};
use super::side::{Ends, Line, Refused};
use super::sums::{Amount, Of};
use settlement_day::{Instruction, ISSUES};
use std::collections::BTreeSet;
use std::io;

/// A difference, or that there is none where one was looked for.
pub enum Difference<'a> {
    /// The days from one to another have the same instructions.
    Same { first: u16, last: u16 },
    /// The instructions of a day differ: how many stand only in A and only in B, moved, have other numbers; and
    /// whether some were compared without their order.
    Edited { only: [usize; 2], moved: usize, changed: usize, cut: bool },
    /// From these words on the order of instructions is not compared: there are more edits than the limit.
    Unordered { words: [usize; 2] },
    /// So many like instructions one after another that one tape has alone.
    Only { side: usize, line: Line, count: usize },
    /// So many instructions one after another that stand elsewhere; the first of them.
    Moved { words: [usize; 2], instruction: Instruction, count: usize },
    /// An instruction with other numbers; of a roll the issues whose price or accrued amount differs.
    Changed { lines: [Line; 2], quoted: Vec<u32> },
    /// So many like instructions one after another that are refused in one tape alone, or by another number.
    Refused { lines: [Line; 2], refused: [Option<&'a Refused>; 2], count: usize },
    /// The order of an issue's units.
    Order { issue: u32, parting: Parting },
    /// A sum of the day, or of the book at the end.
    Sum { of: Of, amounts: [Amount; 2] },
    /// The books hold the same at the end of the day, though the instructions differ, or the books did before.
    BooksSame,
    /// Days that one tape has alone: so many instructions, and the first word.
    Alone { side: usize, first: u16, last: u16, count: usize, word: usize },
    /// Day and phase of the books at the end.
    End { books: [(u16, &'static str); 2] },
    /// Where reading ends, if it does before the tape.
    ReadingEnds { ends: [Option<&'a Ends>; 2] },
    /// The ledgers have the same lots in another order, or parted otherwise.
    Ledger,
}

impl Difference<'_> {
    /// How many things differ so.
    pub fn count(&self) -> usize {
        match self {
            Difference::Only { count, .. }
            | Difference::Moved { count, .. }
            | Difference::Refused { count, .. } => *count,
            _ => 1,
        }
    }
}

/// How the instructions of a day differ, told one after another.
pub fn edited(
    parts: [Part; 2],
    edits: &Edits,
    tell: &mut dyn FnMut(&Difference) -> io::Result<()>,
) -> io::Result<()> {
    let words = |places: [usize; 2]| [0, 1].map(|side| word_at(&parts[side], places[side]));
    if let Some(cut) = edits.cut {
        tell(&Difference::Unordered { words: words(cut) })?;
    }
    for (side, part) in parts.iter().enumerate() {
        let follows =
            |one: &usize, next: &usize| one + 1 == *next && part.is_same(*one, part, *next);
        for like in edits.only[side].chunk_by(follows) {
            let (line, count) = (part.line(like[0]), like.len());
            tell(&Difference::Only { side, line, count })?;
        }
    }
    let follows = |one: &[usize; 2], next: &[usize; 2]| one.map(|place| place + 1) == *next;
    for together in edits.moved.chunk_by(follows) {
        let (instruction, count) = (parts[0].instruction(together[0][0]), together.len());
        tell(&Difference::Moved { words: words(together[0]), instruction, count })?;
    }
    for places in &edits.changed {
        let lines = [0, 1].map(|side| parts[side].line(places[side]));
        tell(&Difference::Changed { lines, quoted: quoted(parts, *places) })?;
    }
    Ok(())
}

/// The first word of the instruction at a place; behind the last one, that of the last.
fn word_at(part: &Part, at: usize) -> usize {
    let lines = &part.record.lines;
    lines.get(at).or(lines.last()).map_or(0, |line| line.word)
}

/// The issues whose price or accrued amount differs in two rolls.
fn quoted(parts: [Part; 2], places: [usize; 2]) -> Vec<u32> {
    let [one, other] = [0, 1].map(|side| parts[side].quotes(places[side]).iter());
    let differ = (0..).zip(one.zip(other)).filter(|(_, (one, other))| one != other);
    let issues: BTreeSet<u32> = differ.map(|(at, _)| at % ISSUES as u32).collect();
    issues.into_iter().collect()
}

/// What the instructions of a day changed: refusals, orders of units, and sums.
pub fn changed<'a>(parts: [Part<'a>; 2], edits: &Edits) -> Vec<Difference<'a>> {
    let mut found = refusals(parts, edits);
    let [one, other] = parts.map(|part| &part.record.orders);
    let issues: BTreeSet<&u32> = one.keys().chain(other.keys()).collect();
    let none = Order::default();
    for issue in issues {
        let [one, other] = [one, other].map(|orders| orders.get(issue).unwrap_or(&none));
        if let Some(parting) = one.parting(other) {
            found.push(Difference::Order { issue: *issue, parting });
        }
    }
    let [one, other] = parts.map(|part| &part.record.sums);
    let sums = one.differing(other).into_iter();
    found.extend(sums.map(|(of, amounts)| Difference::Sum { of, amounts }));
    found
}

/// An instruction that is in both tapes, at these places, and its refusals, which differ.
type Judged<'a> = ([usize; 2], [Option<&'a Refused>; 2]);

/// The instructions of both tapes that are refused in one alone, or by another number.
fn refusals<'a>(parts: [Part<'a>; 2], edits: &Edits) -> Vec<Difference<'a>> {
    let mut judged: Vec<Judged> = Vec::new();
    for stretch in &edits.stretches {
        judge(parts, stretch.places, stretch.length, &mut judged);
    }
    for places in edits.moved.iter().chain(&edits.alike) {
        judge(parts, *places, 1, &mut judged);
    }
    judged.sort_unstable_by_key(|(places, _)| *places);
    let numbers = |refused: &[Option<&Refused>; 2]| refused.map(|one| one.map(|one| one.refusal));
    let follows = |one: &Judged, next: &Judged| {
        let like = parts[0].is_same(one.0[0], &parts[0], next.0[0]);
        one.0.map(|place| place + 1) == next.0 && numbers(&one.1) == numbers(&next.1) && like
    };
    let told = |like: &[Judged<'a>]| {
        let (places, refused) = like[0];
        let lines = [0, 1].map(|side| parts[side].line(places[side]));
        Difference::Refused { lines, refused, count: like.len() }
    };
    judged.chunk_by(follows).map(told).collect()
}

/// Of so many instructions that both tapes have from these places on, those whose refusals differ.
fn judge<'a>(
    parts: [Part<'a>; 2],
    places: [usize; 2],
    length: usize,
    judged: &mut Vec<Judged<'a>>,
) {
    let refused = |side: usize| parts[side].refused(places[side]..places[side] + length);
    let [mut one, mut other] = [0, 1].map(|side| refused(side).iter().peekable());
    loop {
        let next = [one.peek().map(|r| r.at - places[0]), other.peek().map(|r| r.at - places[1])];
        let Some(by) = next.into_iter().flatten().min() else { break };
        let at = places.map(|place| place + by);
        let both = [one.next_if(|r| r.at == at[0]), other.next_if(|r| r.at == at[1])];
        if both[0].map(|r| r.refusal) != both[1].map(|r| r.refusal) {
            judged.push((at, both));
        }
    }
}
