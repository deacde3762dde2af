//! Part lent: what no book of the second engine can hold, and what a call does not use.
//!
//! A phase above 2 and columns of other lengths are damage: `sound` says so, the unit question,
//! `status`, `ask` and every call are refused by 2 (by 1 first, where the output is short) and every column and word
//! stays as it came. A kind that is none is refused by 14 before anything else. Quotes and outputs
//! that a call does not use change nothing.

use crate::Failure;
use reference::measures::same_quotes;
use settlement_day::raw::{self, Answer, AskAnswer, Columns, ColumnsMut, StatusAnswer, UnitAnswer};
use settlement_day::{Book, Fields, Phase};
use tests::books::{random_book, Shape};
use tests::convert::library_book;
use tests::engines::pattern;
use tests::rng::Rng;

/// The lengths of the nine columns, in the order in which they are lent.
const LENGTHS: [usize; 9] = [1_024, 1_024, 288, 64, 2_048, 2_048, 2_048, 2_048, 2_048];
/// Phases that are none; the low bytes of some are those of a phase.
const NO_PHASES: [u32; 10] = [3, 4, 255, 256, 257, 258, 65_536, 1 << 31, u32::MAX - 1, u32::MAX];
/// Kinds that are none; the low bits of some are those of a kind.
const NO_KINDS: [u32; 18] =
    [0, 8, 9, 10, 11, 12, 15, 16, 17, 29, 30, 257, 269, 270, 65_537, 1 << 28, 1 << 31, u32::MAX];
/// The lengths of an output, both sides of 4,096.
const OUTPUTS: [usize; 4] = [0, 4_095, 4_096, 5_000];
/// The words before and after a lent output, which no call may touch.
const MARGIN: usize = 4;

/// A book in columns of any length.
#[derive(Clone, PartialEq, Eq)]
struct Lent {
    day: u16,
    phase: u32,
    entries: usize,
    turn: u32,
    marks: [u8; 16],
    nets: Vec<i32>,
    delivered: Vec<u32>,
    lifts: Vec<u32>,
    charges: Vec<i64>,
    issues: Vec<u8>,
    froms: Vec<u8>,
    tos: Vec<u8>,
    lots: Vec<u32>,
    days: Vec<u16>,
}

impl Lent {
    /// The columns of a book.
    fn of(book: &Book) -> Lent {
        Lent {
            day: book.day,
            phase: book.phase.0,
            entries: book.entries,
            turn: book.turn,
            marks: book.marks,
            nets: book.nets.to_vec(),
            delivered: book.delivered.to_vec(),
            lifts: book.lifts.to_vec(),
            charges: book.charges.to_vec(),
            issues: book.issues.to_vec(),
            froms: book.froms.to_vec(),
            tos: book.tos.to_vec(),
            lots: book.lots.to_vec(),
            days: book.days.to_vec(),
        }
    }

    /// Makes a column of this length, with zeros after what it had.
    fn set_length(&mut self, column: usize, length: usize) {
        match column {
            0 => self.nets.resize(length, 0),
            1 => self.delivered.resize(length, 0),
            2 => self.lifts.resize(length, 0),
            3 => self.charges.resize(length, 0),
            4 => self.issues.resize(length, 0),
            5 => self.froms.resize(length, 0),
            6 => self.tos.resize(length, 0),
            7 => self.lots.resize(length, 0),
            _ => self.days.resize(length, 0),
        }
    }

    fn columns(&self) -> Columns<'_> {
        Columns {
            day: self.day,
            phase: self.phase,
            entries: self.entries,
            turn: self.turn,
            marks: &self.marks,
            nets: &self.nets,
            delivered: &self.delivered,
            lifts: &self.lifts,
            charges: &self.charges,
            issues: &self.issues,
            froms: &self.froms,
            tos: &self.tos,
            lots: &self.lots,
            days: &self.days,
        }
    }

    fn columns_mut(&mut self) -> ColumnsMut<'_> {
        ColumnsMut {
            day: &mut self.day,
            phase: &mut self.phase,
            entries: &mut self.entries,
            turn: &mut self.turn,
            marks: &mut self.marks,
            nets: &mut self.nets,
            delivered: &mut self.delivered,
            lifts: &mut self.lifts,
            charges: &mut self.charges,
            issues: &mut self.issues,
            froms: &mut self.froms,
            tos: &mut self.tos,
            lots: &mut self.lots,
            days: &mut self.days,
        }
    }
}

/// Runs all of it; gives the answers compared.
pub fn run(seed: u64, cases: u64) -> Result<u64, Failure> {
    let mut compared = 0;
    for at in 0..3 + cases / 100 {
        let mut rng = Rng::of_case(seed ^ 0x6c65_6e74, at);
        let shape = Shape::few(&mut rng);
        let book =
            if at == 0 { Book::fresh() } else { library_book(&random_book(&mut rng, &shape)) };
        let told = |what: String| Failure::Told(format!("book {at} of the part: {what}"));
        compared += no_phases(&book).map_err(told)?;
        compared += wrong_lengths(&book, &mut rng).map_err(told)?;
        compared += no_kinds(&book).map_err(told)?;
        compared += not_used(&book, &mut rng).map_err(told)?;
    }
    Ok(compared)
}

/// The instructions of the nine kinds, with numbers in range.
fn instructions() -> [Fields; 9] {
    [
        [1, 3, 5, 6, 1],
        [2, 3, 5, 1, 0],
        [3, 3, 5, 1, 0],
        [4, 3, 5, 0, 0],
        [5, 0, 0, 0, 0],
        [6, 0, 0, 0, 0],
        [7, 1, 300, 0, 0],
        [13, 4, 1, 0, 0],
        [14, 65_535, 0, 0, 0],
    ]
}

/// Has the call question 1?
fn uses_output(kind: u32) -> bool {
    matches!(kind, 2 | 3 | 6)
}

/// The book with a phase that is none.
fn no_phases(book: &Book) -> Result<u64, String> {
    let mut compared = 0;
    for phase in NO_PHASES {
        let damaged = Book { phase: Phase(phase), ..book.clone() };
        compared +=
            refused_by_two(&Lent::of(&damaged)).map_err(|e| format!("phase {phase}: {e}"))?;
    }
    Ok(compared)
}

/// The book with one or two columns of another length, and with any number of entries beside.
fn wrong_lengths(book: &Book, rng: &mut Rng) -> Result<u64, String> {
    let mut compared = 0;
    for (column, right) in LENGTHS.into_iter().enumerate() {
        for length in [0, 1, right - 1, right + 1, right + 64, 2 * right] {
            let mut lent = Lent::of(book);
            lent.set_length(column, length);
            if rng.chance(1, 4) {
                let other = (column + 1 + rng.range(0, 7) as usize) % LENGTHS.len();
                lent.set_length(other, *rng.pick(&[0, 1, LENGTHS[other] - 1, 3_000]));
            }
            if rng.chance(1, 4) {
                lent.entries = *rng.pick(&[0, length, 2_049, usize::MAX]);
            }
            let told = |error| format!("column {column} of length {length}: {error}");
            compared += refused_by_two(&lent).map_err(told)?;
        }
    }
    Ok(compared)
}

/// A damaged book: not sound, every unit question and call refused, by 1 where the output is short.
fn refused_by_two(lent: &Lent) -> Result<u64, String> {
    expect("sound", 0, raw::sound(&lent.columns()))?;
    let no_unit = UnitAnswer { refusal: 2, found: 0, account: 0, lots: 0 };
    for (issue, k) in [(0, 0), (15, u32::MAX), (16, 0), (u32::MAX, 0)] {
        expect("unit", no_unit, raw::unit(&lent.columns(), issue, k))?;
    }
    let no_ticket = AskAnswer { refusal: 2, ticket: [0; 6] };
    for (issue, unit) in [(3, 0), (15, u32::MAX), (16, 0), (u32::MAX, 0)] {
        expect("ask", no_ticket, raw::ask(&lent.columns(), issue, unit))?;
    }
    let no_status = StatusAnswer { refusal: 2, case: 0, lots: 0 };
    for (issue, k) in [(3, 0), (15, u32::MAX), (16, 0), (u32::MAX, 0)] {
        expect("status", no_status, raw::status(&lent.columns(), issue, k))?;
    }
    let mut compared = 13;
    for fields in instructions() {
        for out in OUTPUTS {
            let short = uses_output(fields[0]) && out < 4_096;
            refused(lent, &fields, &same_quotes(100_000, 501), out, if short { 1 } else { 2 })?;
            compared += 1;
        }
    }
    for out in OUTPUTS {
        commit_refused(lent, out, if out < 4_096 { 1 } else { 2 })?;
        compared += 1;
    }
    Ok(compared)
}

/// A commit that is refused by this number: 0 in every other number, book and output as they came.
fn commit_refused(lent: &Lent, out: usize, number: u32) -> Result<(), String> {
    let mut after = lent.clone();
    let mut output = pattern(out + 2 * MARGIN);
    let words = &mut output[MARGIN..MARGIN + out];
    let answer = raw::commit(&mut after.columns_mut(), &[3, 0, 5, 100_000, 0, 0], words);
    let case = format!("commit with an output of {out} words");
    expect(&case, Answer { refusal: number, count: 0, cancelled: 0 }, answer)?;
    expect(&format!("{case}: the book is as it came"), true, after == *lent)?;
    expect(&format!("{case}: the output is as it came"), true, output == pattern(out + 2 * MARGIN))
}

/// Kinds that are none, on the book and on a damaged one, with outputs of every length.
fn no_kinds(book: &Book) -> Result<u64, String> {
    let damaged = Book { entries: usize::MAX, ..book.clone() };
    let mut compared = 0;
    for lent in [Lent::of(book), Lent::of(&damaged)] {
        for kind in NO_KINDS {
            for out in OUTPUTS {
                refused(&lent, &[kind, 3, 5, 6, 1], &same_quotes(100_000, 501), out, 14)?;
                compared += 1;
            }
        }
    }
    Ok(compared)
}

/// A call that is refused by this number: 0 in every other number, book and output as they came.
fn refused(
    lent: &Lent,
    fields: &Fields,
    quotes: &[u32],
    out: usize,
    number: u32,
) -> Result<(), String> {
    let mut after = lent.clone();
    let mut output = pattern(out + 2 * MARGIN);
    let words = &mut output[MARGIN..MARGIN + out];
    let answer = raw::call(&mut after.columns_mut(), fields, quotes, words);
    let case = format!("call {fields:?} with an output of {out} words");
    expect(&case, Answer { refusal: number, count: 0, cancelled: 0 }, answer)?;
    expect(&format!("{case}: the book is as it came"), true, after == *lent)?;
    expect(&format!("{case}: the output is as it came"), true, output == pattern(out + 2 * MARGIN))
}

/// The calls with quotes and outputs that they do not use: the same answer and book as without.
fn not_used(book: &Book, rng: &mut Rng) -> Result<u64, String> {
    for fields in instructions() {
        let kind = fields[0];
        let quotes: &[u32] = if kind == 7 { &same_quotes(100_000, 501) } else { &[] };
        let out = if uses_output(kind) { 4_096 } else { 0 };
        let (answer, after, words) = made(book, &fields, quotes, out);
        let other_quotes: Vec<u32> = (0..rng.range(0, 40)).map(|_| rng.next_u32()).collect();
        let quotes = if kind == 7 { quotes } else { &other_quotes };
        let longer = if uses_output(kind) { 4_100 } else { *rng.pick(&[1, 33, 5_000]) };
        let (answer2, after2, words2) = made(book, &fields, quotes, longer);
        let case = format!("call {fields:?} with what it does not use");
        expect(&case, answer, answer2)?;
        expect(&format!("{case}: the book"), true, after == after2)?;
        let (head, tail) = words2.split_at(words.len());
        let rest = pattern(words2.len())[words.len()..] == *tail;
        expect(&format!("{case}: the output"), true, head == words && rest)?;
    }
    Ok(instructions().len() as u64)
}

/// Makes a call on a copy of the book: the answer, the book after it and the output.
fn made(book: &Book, fields: &Fields, quotes: &[u32], out: usize) -> (Answer, Lent, Vec<u32>) {
    let mut after = Lent::of(book);
    let mut output = pattern(out);
    let answer = raw::call(&mut after.columns_mut(), fields, quotes, &mut output);
    (answer, after, output)
}

/// Compares with what the paper has.
fn expect<A: PartialEq + std::fmt::Debug>(case: &str, paper: A, library: A) -> Result<(), String> {
    if paper == library {
        return Ok(());
    }
    Err(format!("{case}\n  by the paper: {paper:?}\n  library:      {library:?}"))
}
