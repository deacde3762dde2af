//! Part tape: reader and writer beside those of the second engine.
//!
//! Every kind with each single bit of each word turned, every truncation, every field at its limits
//! and one past, outputs of every length at the edge, random words; written and read back both ways.

use crate::Failure;
use reference::book::QUOTES;
use reference::questions::WRITER_OUTPUT;
use reference::tape::{self, Instruction};
use settlement_day::raw::{self, ReadAnswer, WriteAnswer};
use settlement_day::{Fields, Instruction as LibraryInstruction};
use std::collections::BTreeMap;
use std::fmt::Display;
use tests::convert::{library_instruction, reference_instruction};
use tests::engines::pattern;
use tests::report::Mismatch;
use tests::rng::Rng;

/// The words of a tape that are read at most, a roll's and some more.
const MOST_WORDS: usize = 36;
/// The lengths of the writer's output.
const OUTPUTS: [usize; 7] = [0, 1, 17, 32, 33, 34, 60];

/// The kinds of the instructions.
const KINDS: [u32; 9] = [1, 2, 3, 4, 5, 6, 7, 13, 14];
/// Kinds that are none of an instruction; the low bits of some are those of one.
const NO_KINDS: [u32; 18] =
    [0, 8, 9, 10, 11, 12, 15, 16, 17, 29, 30, 256, 257, 269, 270, 1 << 28, 1 << 31, u32::MAX];

/// The numbers that reader and writer can answer, by the paper; 0 is done.
const NUMBERS: [(&str, [u32; 3]); 2] = [("read", [0, 13, 14]), ("write", [0, 1, 15])];

/// How many answers were compared, and which numbers were met how often.
#[derive(Default)]
struct Compared {
    answers: u64,
    met: BTreeMap<(&'static str, u32), u64>,
}

/// Runs all words and fields; gives the answers compared.
pub fn run(seed: u64, cases: u64) -> Result<u64, Failure> {
    let mut compared = Compared::default();
    for words in whole_instructions() {
        compared.read_turned(&words)?;
        compared.read_cut(&words)?;
    }
    compared.read_heads()?;
    compared.write_edges()?;
    compared.write_no_kind()?;
    for at in 0..20 * cases {
        let mut rng = Rng::of_case(seed ^ 0x7461_7065, at);
        compared.read(&random_words(&mut rng))?;
        let (fields, quotes) = random_fields(&mut rng);
        compared.write(&fields, &quotes, *rng.pick(&OUTPUTS))?;
    }
    compared.all_met().map_err(Failure::Told)?;
    Ok(compared.answers)
}

/// Reads or writes one replayed case.
pub fn replay(text: &str) -> Result<String, String> {
    let (name, rest) = text.split_once(' ').unwrap_or((text, ""));
    let number = |word: &str| u32::from_str_radix(word, if name == "read" { 16 } else { 10 });
    let words: Result<Vec<u32>, _> = rest.split_whitespace().map(number).collect();
    let words = words.map_err(|_| format!("`{rest}` has a word that is not a number"))?;
    let mut compared = Compared::default();
    match name {
        "read" => compared.read(&words),
        "write" if words.len() >= 6 => {
            let fields = [words[0], words[1], words[2], words[3], words[4]];
            compared.write(&fields, &words[6..], words[5] as usize)
        }
        _ => return Err("--replay takes: read WORDS, or write FIELDS OUT QUOTES".to_string()),
    }
    .map(|_| "the case agrees".to_string())
    .map_err(|mismatch| mismatch.to_string())
}

impl Compared {
    /// Counts an answer with its number.
    fn note(&mut self, name: &'static str, number: u32) {
        self.answers += 1;
        *self.met.entry((name, number)).or_default() += 1;
    }

    /// Every number of reader and writer was met; an error names those that were not.
    fn all_met(&self) -> Result<(), String> {
        let pairs = NUMBERS.iter().flat_map(|(name, all)| all.iter().map(move |&no| (*name, no)));
        let missing: Vec<String> = pairs
            .filter(|pair| !self.met.contains_key(pair))
            .map(|(name, number)| format!("{name}: answers {number}"))
            .collect();
        if missing.is_empty() {
            return Ok(());
        }
        Err(format!("never met:\n  {}", missing.join("\n  ")))
    }

    /// Reads the words with each single bit of each word turned.
    fn read_turned(&mut self, words: &[u32]) -> Result<(), Mismatch> {
        for at in 0..words.len() {
            for bit in 0..32 {
                let mut turned = words.to_vec();
                turned[at] ^= 1 << bit;
                self.read(&turned)?;
                self.read_cut(&turned[..=at])?;
            }
        }
        Ok(())
    }

    /// Reads every part of the words that begins with the first.
    fn read_cut(&mut self, words: &[u32]) -> Result<(), Mismatch> {
        (0..=words.len()).try_for_each(|end| self.read(&words[..end]))
    }

    /// Reads every head of every kind with no bit and with each bit alone, before words of each
    /// kind.
    fn read_heads(&mut self) -> Result<(), Mismatch> {
        for kind in 0..16_u32 {
            for bits in (0..28).map(|bit| 1 << bit).chain([0, (1 << 28) - 1]) {
                let head = kind << 28 | bits;
                self.read(&[head])?;
                for next in 0..16_u32 {
                    let mut words = vec![next << 28; MOST_WORDS];
                    words[0] = head;
                    self.read(&words)?;
                }
            }
        }
        Ok(())
    }

    /// Writes every instruction with each field at its limits and one past, to outputs of every
    /// length.
    fn write_edges(&mut self) -> Result<(), Mismatch> {
        for kind in KINDS {
            for field in 1..5 {
                for number in edge_numbers() {
                    let mut fields = used_fields(kind);
                    fields[field] = if fields[field] == 0 { 0 } else { number };
                    for out in OUTPUTS {
                        self.write(&fields, &[7; QUOTES], out)?;
                    }
                }
            }
        }
        for quotes in edge_quotes() {
            for out in OUTPUTS {
                self.write(&used_fields(7), &quotes, out)?;
                self.write(&used_fields(1), &quotes, out)?;
            }
        }
        Ok(())
    }

    /// Writes kinds that are none, to outputs of every length.
    fn write_no_kind(&mut self) -> Result<(), Mismatch> {
        for kind in NO_KINDS {
            for numbers in [0, 1] {
                for out in OUTPUTS {
                    self.write(&[kind, numbers, numbers, numbers, numbers], &[7; QUOTES], out)?;
                }
            }
        }
        Ok(())
    }

    /// Reads with both readers, quotes too, 0 where a word is missing; writes back what was read.
    fn read(&mut self, words: &[u32]) -> Result<(), Mismatch> {
        let answer = raw::read(words);
        let expected = match tape::read(words) {
            Ok((instruction, count)) => {
                let fields = library_instruction(&instruction).fields();
                ReadAnswer { refusal: 0, fields, count }
            }
            Err(refusal) => ReadAnswer { refusal, fields: [0; 5], count: 0 },
        };
        let case = format!("read {}", listed(words.iter().map(|word| format!("{word:08x}"))));
        Mismatch::of(&case, expected, answer)?;
        self.note("read", answer.refusal);
        let quotes = raw::quotes(words);
        let mut expected = tape::quotes(words);
        expected.resize(QUOTES, 0);
        Mismatch::of(&case, expected, quotes.to_vec())?;
        if answer.refusal != 0 {
            return Ok(());
        }
        let mut written = vec![0; WRITER_OUTPUT];
        let wrote = raw::write(&answer.fields, &quotes, &mut written);
        Mismatch::of(&case, WriteAnswer { refusal: 0, count: answer.count }, wrote)?;
        Mismatch::of(&case, &words[..answer.count], &written[..answer.count])
    }

    /// Writes with both writers, and reads back what was written. A refusal leaves the output as it
    /// came.
    fn write(&mut self, fields: &Fields, quotes: &[u32], out: usize) -> Result<(), Mismatch> {
        let (mut reference, mut library) = (pattern(out + 2), pattern(out + 2));
        let expected = by_reference(fields, quotes, &mut reference[1..=out]);
        let answer = raw::write(fields, quotes, &mut library[1..=out]);
        let case = format!("write {} {out} {}", listed(fields), listed(quotes));
        Mismatch::of(&case, expected, answer)?;
        Mismatch::of(&case, &reference, &library)?;
        self.note("write", answer.refusal);
        if answer.refusal != 0 {
            Mismatch::of(&case, 0, answer.count)?;
            return Mismatch::of(&case, &pattern(out + 2), &library);
        }
        let back = raw::read(&library[1..=answer.count]);
        Mismatch::of(&case, ReadAnswer { refusal: 0, fields: *fields, count: answer.count }, back)
    }
}

/// The second engine's writer; a kind that is none is refused by 15, after question 1.
fn by_reference(fields: &Fields, quotes: &[u32], out: &mut [u32]) -> WriteAnswer {
    let Some(instruction) = LibraryInstruction::of_fields(*fields) else {
        return WriteAnswer { refusal: if out.len() < WRITER_OUTPUT { 1 } else { 15 }, count: 0 };
    };
    let answer = tape::write(&reference_instruction(&instruction), quotes, out);
    WriteAnswer { refusal: answer.number, count: answer.count as usize }
}

/// Numbers at the limits of the fields' bits and one past, 0 and 1.
fn edge_numbers() -> Vec<u32> {
    let ends = [1, 4, 6, 14, 16, 18, 28, 32].map(|bits| (1_u64 << bits) as u32);
    let near = |end: u32| [end.wrapping_sub(1), end, end.wrapping_add(1)];
    ends.into_iter().flat_map(near).chain([0, 1, 1 << 31]).collect()
}

/// Every instruction with fields at both ends, as words, and two words after it.
fn whole_instructions() -> Vec<Vec<u32>> {
    let mut all = Vec::new();
    for [issue, account, to, lots, days, rate, price, mark, day] in [
        [0, 0, 0, 0, 0, 0, 0, 0, 0],
        [15, 63, 63, (1 << 28) - 1, 15, (1 << 14) - 1, (1 << 18) - 1, 1, 65_535],
        [5, 42, 21, 0xa5a_5a5a, 10, 0x2aaa, 0x15555, 1, 0xa5a5],
    ] {
        for instruction in [
            Instruction::Trade { issue, from: account, to, lots },
            Instruction::Deliver { issue, account, lots },
            Instruction::Resolve { issue, account, lots },
            Instruction::PairOff { issue, account },
            Instruction::Close,
            Instruction::Cutoff,
            Instruction::Roll { days, rate },
            Instruction::Mark { issue, mark },
            Instruction::Turn { day },
        ] {
            let mut words = vec![0; WRITER_OUTPUT];
            let count = tape::write(&instruction, &[price; QUOTES], &mut words).count as usize;
            words.truncate(count);
            words.extend([0x5000_0000, 0xffff_ffff]);
            all.push(words);
        }
    }
    all
}

/// An instruction of a kind with 1 in every field that it has.
fn used_fields(kind: u32) -> Fields {
    let used = match kind {
        1 => 5,
        2 | 3 => 4,
        4 | 7 | 13 => 3,
        14 => 2,
        _ => 1,
    };
    let mut fields = [0; 5];
    fields[..used].fill(1);
    fields[0] = kind;
    fields
}

/// Lists of quotes: of every length at the edge, and one quote at its limits and one past.
fn edge_quotes() -> Vec<Vec<u32>> {
    let mut all: Vec<Vec<u32>> = [0, 1, 16, 17, 31, 32, 33].map(|length| vec![1; length]).to_vec();
    for at in 0..QUOTES {
        for quote in [0, (1 << 18) - 1, 1 << 18, u32::MAX] {
            let mut quotes = vec![1; QUOTES];
            quotes[at] = quote;
            all.push(quotes);
        }
    }
    all
}

/// Random words: any, or kinds that follow one another rightly, with a bit turned now and then.
fn random_words(rng: &mut Rng) -> Vec<u32> {
    let length = rng.range(0, MOST_WORDS as u32) as usize;
    let any = rng.chance(1, 4);
    let next = if rng.chance(1, 2) { 8_u32 } else { 9 };
    let mut words: Vec<u32> = (0..length)
        .map(|at| match at {
            _ if any => rng.next_u32(),
            0 => random_head(rng),
            _ => next << 28 | rng.range(0, (1 << 18) - 1),
        })
        .collect();
    if length > 0 && rng.chance(1, 3) {
        words[rng.range(0, length as u32 - 1) as usize] ^= 1 << rng.range(0, 31);
    }
    words
}

/// A head of a kind that an instruction has, with more or fewer of its low bits 0; of a mark and of a
/// turn mostly its own bits alone.
fn random_head(rng: &mut Rng) -> u32 {
    let (kind, bits) = (*rng.pick(&KINDS), rng.next_u32() >> 4);
    let used = match kind {
        13 if rng.chance(3, 4) => 0x0f00_0001,
        14 if rng.chance(3, 4) => 0xffff,
        _ => 0x0fff_ffff << rng.range(0, 28),
    };
    kind << 28 | (bits & used)
}

/// Random fields of a kind that has them, mostly in range, and quotes.
fn random_fields(rng: &mut Rng) -> (Fields, Vec<u32>) {
    let used = used_fields(*rng.pick(&KINDS));
    let mut fields = used;
    for at in 1..5 {
        if used[at] != 0 {
            let bits = if used[0] == 13 { rng.range(27, 31) } else { rng.range(18, 31) };
            fields[at] = rng.next_u32() >> bits;
        }
    }
    let length = if rng.chance(9, 10) { 32 } else { rng.range(0, 40) };
    let low = rng.range(13, 15);
    (fields, (0..length).map(|_| rng.next_u32() >> low).collect())
}

/// Words with spaces between them.
fn listed<T: Display>(words: impl IntoIterator<Item = T>) -> String {
    words.into_iter().map(|word| word.to_string()).collect::<Vec<_>>().join(" ")
}
