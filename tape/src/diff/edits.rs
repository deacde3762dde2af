//! The instructions of a day in two tapes: which stand only in one, which moved, and which have other numbers.

use super::common::{common, Stretch};
use super::side::{Line, Record, Refused};
use settlement_day::{Fields, Instruction, QUOTES};
use std::cmp::Ordering;
use std::mem;
use std::ops::Range;

/// The most edits of a day that are looked for one after another, instructions left out and put in. Behind so many
/// the instructions are compared without their order: near-equal days take time by their length, and no others
/// more than by their length and this number.
pub const MOST_EDITS: usize = 1_000;

/// A day of one tape: the tape, and what is noted of the day.
#[derive(Clone, Copy)]
pub struct Part<'a> {
    pub tape: &'a [u32],
    pub record: &'a Record,
}

/// How the instructions of a day differ. A pair has the place of an instruction among those of the day, in the
/// first tape and in the second.
#[derive(Clone, Debug, Default, PartialEq, Eq)]
pub struct Edits {
    /// The stretches that both have.
    pub stretches: Vec<Stretch>,
    /// Instructions that stand elsewhere.
    pub moved: Vec<[usize; 2]>,
    /// Instructions with other numbers at the same place: the same call, on the same issue and accounts.
    pub changed: Vec<[usize; 2]>,
    /// Instructions that one tape has alone.
    pub only: [Vec<usize>; 2],
    /// Where there are more edits than the limit: the places from which on no order is compared, and the
    /// instructions that both have behind them.
    pub cut: Option<[usize; 2]>,
    pub alike: Vec<[usize; 2]>,
}

impl<'a> Part<'a> {
    /// The instruction at a place, and its first word.
    pub fn line(&self, at: usize) -> Line {
        self.record.lines[at]
    }

    /// The instruction at a place.
    pub fn instruction(&self, at: usize) -> Instruction {
        self.line(at).instruction
    }

    /// The words of a roll's quotes; none of another instruction.
    pub fn quotes(&self, at: usize) -> &'a [u32] {
        let Line { word, instruction: Instruction::Roll { .. } } = self.line(at) else {
            return &[];
        };
        self.tape.get(word + 1..word + 1 + QUOTES).unwrap_or_default()
    }

    /// All that makes an instruction the same as another.
    fn key(&self, at: usize) -> (Fields, &'a [u32]) {
        (self.instruction(at).fields(), self.quotes(at))
    }

    /// Is the instruction at a place the same as that of another tape, or of this one, at another place?
    pub fn is_same(&self, at: usize, other: &Part, there: usize) -> bool {
        self.instruction(at) == other.instruction(there) && self.quotes(at) == other.quotes(there)
    }

    /// The refusals of the instructions at these places.
    pub fn refused(&self, places: Range<usize>) -> &'a [Refused] {
        let refused = &self.record.refused;
        let at = |place: usize| refused.partition_point(|one| one.at < place);
        &refused[at(places.start)..at(places.end)]
    }
}

impl Edits {
    /// How the instructions of a day differ in two tapes.
    pub fn of(parts: [Part; 2]) -> Edits {
        let lengths = parts.map(|part| part.record.lines.len());
        let same = |one: usize, other: usize| parts[0].is_same(one, &parts[1], other);
        let found = common(lengths, MOST_EDITS, same);
        let gaps = gaps(&found.stretches, lengths);
        let mut left = [0, 1].map(|side| gaps.iter().flat_map(|gap| gap[side].clone()).collect());
        let cut = found.cut;
        let is_behind =
            |pair: &[usize; 2]| cut.is_some_and(|cut| pair[0] >= cut[0] && pair[1] >= cut[1]);
        let pairs = paired(&mut left, |side, at| parts[side].key(at));
        let (alike, moved) = pairs.into_iter().partition(is_behind);
        let mut edits = Edits { stretches: found.stretches, moved, cut, alike, ..Edits::default() };
        for gap in gaps {
            let mut inside = [0, 1].map(|side| within(&left[side], &gap[side]).to_vec());
            edits
                .changed
                .extend(paired(&mut inside, |side, at| head(&parts[side].instruction(at))));
            edits.only.iter_mut().zip(inside).for_each(|(only, inside)| only.extend(inside));
        }
        edits
    }

    /// Are the instructions the same?
    pub fn is_none(&self) -> bool {
        let only = self.only.iter().all(Vec::is_empty);
        only && self.moved.is_empty() && self.changed.is_empty() && self.cut.is_none()
    }
}

/// The places between the stretches, in both lists.
fn gaps(stretches: &[Stretch], lengths: [usize; 2]) -> Vec<[Range<usize>; 2]> {
    let end = Stretch { places: lengths, length: 0 };
    let (mut gaps, mut from) = (Vec::new(), [0, 0]);
    for Stretch { places, length } in stretches.iter().chain([&end]) {
        if *places != from {
            gaps.push([from[0]..places[0], from[1]..places[1]]);
        }
        from = places.map(|place| place + length);
    }
    gaps
}

/// Those of rising places that are within a range.
fn within<'a>(places: &'a [usize], range: &Range<usize>) -> &'a [usize] {
    let at = |place: usize| places.partition_point(|one| *one < place);
    &places[at(range.start)..at(range.end)]
}

/// Pairs the places that have the same key, the first with the first; those without a partner stay in the lists,
/// rising as before.
fn paired<K: Ord>(lists: &mut [Vec<usize>; 2], key: impl Fn(usize, usize) -> K) -> Vec<[usize; 2]> {
    let mut sides = [0, 1].map(|side| {
        let mut list = mem::take(&mut lists[side]);
        // It keeps the order of those that have the same key.
        list.sort_by_key(|at| key(side, *at));
        list.into_iter().peekable()
    });
    let mut pairs = Vec::new();
    while let [Some(&one), Some(&other)] = sides.each_mut().map(|side| side.peek()) {
        match key(0, one).cmp(&key(1, other)) {
            Ordering::Less => lists[0].extend(sides[0].next()),
            Ordering::Greater => lists[1].extend(sides[1].next()),
            Ordering::Equal => {
                pairs.push([one, other]);
                for side in &mut sides {
                    side.next();
                }
            }
        }
    }
    for (list, side) in lists.iter_mut().zip(sides) {
        list.extend(side);
        list.sort_unstable();
    }
    pairs.sort_unstable();
    pairs
}

/// What an instruction is, without the numbers that can be others at the same place: lots, terms, a mark, a day.
fn head(instruction: &Instruction) -> [u32; 4] {
    let [kind, a, b, c, _] = instruction.fields();
    match instruction {
        Instruction::Trade { .. } => [kind, a, b, c],
        Instruction::Deliver { .. } | Instruction::Resolve { .. } | Instruction::PairOff { .. } => {
            [kind, a, b, 0]
        }
        Instruction::Mark { .. } => [kind, a, 0, 0],
        Instruction::Close
        | Instruction::Cutoff
        | Instruction::Roll { .. }
        | Instruction::Turn { .. } => [kind, 0, 0, 0],
    }
}

#[cfg(test)]
mod tests {
    use super::*;
    use crate::text::to_tape;
    use settlement_day::tape;

    /// The tape of a text, and a record of its instructions.
    fn noted(text: &str) -> (Vec<u32>, Record) {
        let (words, _) = crate::bytes::split(&to_tape(text).unwrap());
        let (mut record, mut word) = (Record::default(), 0);
        while word < words.len() {
            let (instruction, count) = tape::read(&words[word..]).unwrap();
            record.lines.push(Line { word, instruction });
            word += count;
        }
        (words, record)
    }

    fn edits(one: &str, other: &str) -> Edits {
        let sides = [noted(one), noted(other)];
        Edits::of([0, 1].map(|side| Part { tape: &sides[side].0, record: &sides[side].1 }))
    }

    #[test]
    fn instructions_that_stand_elsewhere_have_moved() {
        let found = edits(
            "trade 0 1 2 5\ntrade 0 3 4 6\ntrade 0 5 6 7\nclose\n",
            "trade 0 3 4 6\ntrade 0 5 6 7\ntrade 0 1 2 5\nclose\n",
        );
        assert_eq!((found.moved.as_slice(), found.is_none()), (&[[0, 2]][..], false));
        assert_eq!((found.changed.len(), found.only), (0, [vec![], vec![]]));
        assert!(edits("close\n", "close\n").is_none());
    }

    #[test]
    fn other_numbers_at_the_same_place_are_a_change() {
        let found = edits(
            "trade 0 1 2 5\ntrade 0 3 4 6\nclose\nroll 1 300 100000 accrued 0\nturn 3\nmark 1 0\n",
            "trade 0 1 2 9\ntrade 0 3 4 6\nclose\nroll 1 300 100000 accrued 1\nturn 4\nmark 2 0\n",
        );
        assert_eq!(found.changed, [[0, 0], [3, 3], [4, 4]]);
        assert_eq!(found.only, [vec![5], vec![5]]);
        // Elsewhere it is another trade.
        let found = edits("trade 0 1 2 5\nclose\ncutoff\n", "close\ncutoff\ntrade 0 1 2 6\n");
        assert_eq!((found.changed.len(), found.only), (0, [vec![0], vec![2]]));
    }

    #[test]
    fn behind_the_limit_the_order_is_not_compared() {
        let line = |lots: usize| format!("trade 0 1 2 {}\n", lots + 1);
        let rising: String = (0..2_000).map(line).collect();
        let falling: String = (0..2_000).rev().chain([5_000]).map(line).collect();
        let found = edits(&rising, &falling);
        assert!(found.cut.is_some() && !found.is_none());
        assert_eq!(found.only, [vec![], vec![2_000]]);
        let lengths: usize = found.stretches.iter().map(|one| one.length).sum();
        assert_eq!(found.alike.len() + found.moved.len() + lengths, 2_000);
        assert!(found.alike.len() > 500, "{}", found.alike.len());
    }

    #[test]
    fn pairs_are_made_in_order_and_the_others_stay() {
        let letters = [b"abcab", b"xbbca"];
        let mut lists = [vec![0, 1, 2, 3, 4], vec![0, 1, 2, 3, 4]];
        let pairs = paired(&mut lists, |side, at| letters[side][at]);
        assert_eq!(pairs, [[0, 4], [1, 1], [2, 3], [4, 2]]);
        assert_eq!(lists, [vec![3], vec![0]]);
    }
}
