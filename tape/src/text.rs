//! The text form of a tape: one instruction a line, numbers in decimal, `#` begins a comment. A name of
//! a names file can stand for the number of an issue or an account.
//!
//! `word HEX` and `byte HEX` put one word or one last byte on the tape as it is, so that every
//! tape has a text form, damaged ones too.

use crate::bytes::join;
use crate::fault::{shown, words_of, Fault, Faults, Word};
use crate::input::{Day, Taken};
use crate::measure::{counted, Grouped};
use crate::names::{Kind, Names};
use crate::output::Untold;
use settlement_day::{tape, Instruction, Refusal, ISSUES, QUOTES, WRITER_WORDS};
use std::io::Write;
use std::ops::RangeInclusive;

/// The instructions' forms, for errors.
const FORMS: &str = "trade ISSUE FROM TO LOTS, close, deliver ISSUE ACCOUNT LOTS, cutoff, \
    resolve ISSUE ACCOUNT LOTS, pair-off ISSUE ACCOUNT, roll DAYS RATE PRICE accrued ACCRUED (one \
    price or sixteen, one accrued amount or sixteen), mark ISSUE MARK (1: even lots only, 0: any lots), \
    turn DAY (full units dealt in turn from that day on), word HEX, byte HEX";

/// A field of an instruction: its name, the bits that it has on a tape, the least and the highest
/// number that the book takes, and what it is where a name can stand for it.
#[derive(Clone, Copy)]
pub(crate) struct Field {
    pub(crate) name: &'static str,
    bits: u32,
    takes: (u32, u32),
    kind: Option<Kind>,
}

impl Field {
    /// The numbers that the book takes.
    pub(crate) fn range(self) -> RangeInclusive<u32> {
        self.takes.0..=self.takes.1
    }

    /// What is said of a number that is too small or too large.
    fn outside(self, word: &Word, how: &str) -> Fault {
        let Field { name, takes: (least, most), .. } = self;
        let (shown, most) = (shown(word.text), Grouped(most.into()));
        word.fault(format!("{name} {shown} is too {how}: write a number from {least} to {most}"))
    }
}

/// A field of this name.
const fn field(name: &'static str, bits: u32, takes: (u32, u32)) -> Field {
    Field { name, bits, takes, kind: None }
}

/// A field of this name that is an account.
const fn account(name: &'static str) -> Field {
    Field { name, bits: 6, takes: (0, 63), kind: Some(Kind::Account) }
}

pub(crate) const ISSUE: Field =
    Field { name: "issue", bits: 4, takes: (0, 15), kind: Some(Kind::Issue) };
pub(crate) const FROM: Field = account("from");
pub(crate) const TO: Field = account("to");
pub(crate) const ACCOUNT: Field = account("account");
pub(crate) const LOTS: Field = field("lots", 28, (1, 20_000_000));
pub(crate) const DAYS: Field = field("days", 4, (1, 12));
pub(crate) const RATE: Field = field("rate", 14, (0, 10_000));
pub(crate) const PRICE: Field = field("price", 18, (1, 200_000));
pub(crate) const ACCRUED: Field = field("accrued", 18, (0, 10_000));
const MARK: Field = field("mark", 1, (0, 1));
const DAY: Field = field("day", 16, (1, 65_535));

/// The most digits of a number that is read quickly; it fits a word, whatever they are.
const MOST_DIGITS: usize = 9;

/// The most words that a line takes after its first: those of a roll.
const MOST_WORDS: usize = 2 + ISSUES + 1 + ISSUES;

/// The word between the prices and the accrued amounts of a roll.
const ACCRUED_WORD: &str = "accrued";

/// What is said of a roll without accrued amounts.
const NO_ACCRUED: &str = "this roll has no accrued amounts: they are taken as 0 for every issue";

/// What is said where reading ends at a roll of the older form.
const OLDER_ROLL: &str = "this roll has no accrued amounts: put sixteen words of kind 9 after its \
    prices, 90000000 where nothing is accrued";

/// Where a line of a text begins, and the first word that it puts on the tape.
#[derive(Clone, Copy, Debug, PartialEq, Eq)]
pub struct Place {
    pub word: usize,
    /// The line's number, from 1.
    pub line: usize,
    /// The column at which it begins, from 1.
    pub column: usize,
}

/// A text that is right: its tape, the places of its lines, and what is to be said of some of them.
#[derive(Clone, Debug, Default, PartialEq, Eq)]
pub struct Parsed {
    pub tape: Vec<u8>,
    pub places: Vec<Place>,
    pub notes: Faults,
}

/// The bytes of a tape in text form, or what is wrong with it.
pub fn to_tape(text: &str) -> Result<Vec<u8>, Faults> {
    parse(text).map(|parsed| parsed.tape)
}

/// Reads a text in which nothing is named, or tells what is wrong with it.
pub fn parse(text: &str) -> Result<Parsed, Faults> {
    parse_by(&Names::default(), text)
}

/// Reads a text by these names, or tells what is wrong with it. A byte-order mark before the first line
/// is passed over.
pub fn parse_by(names: &Names, text: &str) -> Result<Parsed, Faults> {
    let text = text.strip_prefix('\u{feff}').unwrap_or(text);
    let (mut parser, mut parsed) = (Parser::by(names), Parsed::default());
    for (line, bytes) in (1..).zip(text.lines().map(str::as_bytes)) {
        let word = parsed.tape.len() / 4;
        match parser.line(line, bytes) {
            None => continue,
            Some((column, put)) => {
                parsed.places.push(Place { word, line, column });
                match put {
                    Put::Words(words) => parsed.tape.extend(join(words)),
                    Put::Byte(byte) => parsed.tape.push(byte),
                }
            }
        }
    }
    parser.judge().map(|notes| Parsed { notes, ..parsed })
}

/// What a line puts on the tape.
#[derive(Clone, Copy, Debug, PartialEq, Eq)]
pub enum Put<'a> {
    Words(&'a [u32]),
    Byte(u8),
}

/// A text as it is read, line by line.
#[derive(Debug)]
pub struct Parser<'a> {
    names: &'a Names,
    /// Did the last line put a single byte?
    ended: bool,
    /// The words of the last line.
    words: [u32; WRITER_WORDS],
    notes: Faults,
    faults: Faults,
}

impl<'a> Parser<'a> {
    /// A text at its beginning, in which these names can stand.
    pub fn by(names: &'a Names) -> Parser<'a> {
        let (notes, faults) = (Faults::default(), Faults::default());
        Parser { names, ended: false, words: [0; WRITER_WORDS], notes, faults }
    }

    /// Takes a line: the column at which it begins, and what it puts on the tape, if it puts something. Behind
    /// a fault nothing more is put.
    pub fn line(&mut self, number: usize, line: &[u8]) -> Option<(usize, Put<'_>)> {
        if !self.ended && self.faults.is_empty() {
            let count = plain(line).map(|plain| tape::write(&plain, &[], &mut self.words));
            if let Some(Ok(count)) = count {
                return Some((1, Put::Words(&self.words[..count])));
            }
        }
        self.by_words(number, line)
    }

    /// Takes a line word by word.
    fn by_words(&mut self, number: usize, line: &[u8]) -> Option<(usize, Put<'_>)> {
        let Ok(line) = std::str::from_utf8(line) else {
            let what = "this line is not UTF-8".to_string();
            self.faults.push(Fault { line: number, column: 1, what });
            return None;
        };
        let mut words = words_of(line, number);
        let name = words.next()?;
        // One more than a line can take is enough to tell that they are too many.
        let arguments: Vec<Word> = words.take(MOST_WORDS + 1).collect();
        match line_words(self.names, &name, &arguments, self.ended, &mut self.words) {
            Ok(count) => {
                self.ended = name.text == "byte";
                if !self.faults.is_empty() {
                    return None;
                }
                if let Some(note) = note_of(&name, &arguments) {
                    self.notes.push(name.fault(note.to_string()));
                }
                let put = match self.ended {
                    true => Put::Byte(self.words[0] as u8),
                    false => Put::Words(&self.words[..count]),
                };
                Some((name.column, put))
            }
            Err(more) => {
                self.faults.extend(more);
                None
            }
        }
    }

    /// Is nothing wrong up to here?
    pub fn is_right(&self) -> bool {
        self.faults.is_empty()
    }

    /// The text is read to its end: what is to be said of some lines, or what is wrong with it.
    pub fn judge(self) -> Result<Faults, Faults> {
        if self.faults.is_empty() {
            return Ok(self.notes);
        }
        Err(self.faults)
    }
}

/// The instruction of a line that is its name and numbers of digits alone, one space before each. Nearly all
/// lines are so, and are read quicker than word by word.
fn plain(line: &[u8]) -> Option<Instruction> {
    let end = line.iter().position(|byte| *byte == b' ').unwrap_or(line.len());
    let (name, rest) = line.split_at(end);
    let (mut numbers, mut count) = ([0; 4], 0);
    let mut rest = rest.iter();
    let mut behind = rest.next();
    while let Some(b' ') = behind {
        let (mut number, mut digits) = (0_u32, 0_usize);
        behind = loop {
            match rest.next() {
                // So few digits do not wrap.
                Some(digit @ b'0'..=b'9') => {
                    number = number.wrapping_mul(10).wrapping_add(u32::from(digit - b'0'));
                    digits = digits.wrapping_add(1);
                }
                other => break other,
            }
        };
        if digits == 0 || digits > MOST_DIGITS || count == numbers.len() {
            return None;
        }
        numbers[count] = number;
        count += 1;
    }
    let [issue, account, third, fourth] = numbers;
    match (name, count) {
        _ if behind.is_some() => None,
        (b"trade", 4) => Some(Instruction::Trade { issue, from: account, to: third, lots: fourth }),
        (b"deliver", 3) => Some(Instruction::Deliver { issue, account, lots: third }),
        (b"resolve", 3) => Some(Instruction::Resolve { issue, account, lots: third }),
        (b"pair-off", 2) => Some(Instruction::PairOff { issue, account }),
        (b"close", 0) => Some(Instruction::Close),
        (b"cutoff", 0) => Some(Instruction::Cutoff),
        _ => None,
    }
}

/// What is to be said of a line that is right.
fn note_of(name: &Word, arguments: &[Word]) -> Option<&'static str> {
    let names_them = arguments.iter().any(|word| word.text == ACCRUED_WORD);
    (name.text == "roll" && !names_them).then_some(NO_ACCRUED)
}

/// The words of one line, and how many they are; a single byte is the lowest of the first. After a single byte
/// only single bytes can stand.
fn line_words(
    names: &Names,
    name: &Word,
    arguments: &[Word],
    ended: bool,
    words: &mut [u32; WRITER_WORDS],
) -> Result<usize, Vec<Fault>> {
    if name.text == "byte" {
        words[0] = raw::<u8>(name, arguments, 2).map_err(|fault| vec![fault])?.into();
        return Ok(1);
    }
    if ended {
        let name_shown = shown(name.text);
        let what = format!("{name_shown} cannot follow `byte`: single bytes end a tape");
        return Err(vec![name.fault(what)]);
    }
    if name.text == "word" {
        words[0] = raw::<u32>(name, arguments, 8).map_err(|fault| vec![fault])?;
        return Ok(1);
    }
    let (instruction, quotes) = instruction_of(names, name, arguments)?;
    tape::write(&instruction, &quotes, words)
        .map_err(|refusal| vec![name.fault(format!("the writer says: {}", refusal.said()))])
}

/// The one hexadecimal number of `word` or `byte`.
fn raw<T: TryFrom<u32>>(name: &Word, arguments: &[Word], digits: usize) -> Result<T, Fault> {
    let wanted = format!("one hexadecimal number of up to {digits} digits is wanted");
    let [word] = arguments else {
        return Err(arguments.get(1).unwrap_or(name).fault(wanted));
    };
    let number =
        u32::from_str_radix(word.text, 16).ok().and_then(|number| T::try_from(number).ok());
    number.ok_or_else(|| word.fault(wanted))
}

/// The instruction of a line, with the quotes of a roll.
fn instruction_of(
    names: &Names,
    name: &Word,
    words: &[Word],
) -> Result<(Instruction, Vec<u32>), Vec<Fault>> {
    let take = |fields: &[Field]| numbers(names, name, fields, words);
    let instruction = match name.text {
        "trade" => {
            let numbers = take(&[ISSUE, FROM, TO, LOTS])?;
            let (issue, from, to, lots) = (numbers[0], numbers[1], numbers[2], numbers[3]);
            Instruction::Trade { issue, from, to, lots }
        }
        "deliver" => {
            let numbers = take(&[ISSUE, ACCOUNT, LOTS])?;
            Instruction::Deliver { issue: numbers[0], account: numbers[1], lots: numbers[2] }
        }
        "resolve" => {
            let numbers = take(&[ISSUE, ACCOUNT, LOTS])?;
            Instruction::Resolve { issue: numbers[0], account: numbers[1], lots: numbers[2] }
        }
        "pair-off" => {
            let numbers = take(&[ISSUE, ACCOUNT])?;
            Instruction::PairOff { issue: numbers[0], account: numbers[1] }
        }
        "mark" => {
            let numbers = take(&[ISSUE, MARK])?;
            Instruction::Mark { issue: numbers[0], mark: numbers[1] }
        }
        "turn" => Instruction::Turn { day: take(&[DAY])?[0] },
        "close" => take(&[]).map(|_| Instruction::Close)?,
        "cutoff" => take(&[]).map(|_| Instruction::Cutoff)?,
        "roll" => return roll_of(names, name, words),
        other => {
            let what = format!("there is no instruction {}: write one of {FORMS}", shown(other));
            return Err(vec![name.fault(what)]);
        }
    };
    Ok((instruction, Vec::new()))
}

/// A roll: days, rate, one price or sixteen; then `accrued` with one amount or sixteen, or nothing
/// for 0.
fn roll_of(
    names: &Names,
    name: &Word,
    words: &[Word],
) -> Result<(Instruction, Vec<u32>), Vec<Fault>> {
    let mut parts = words.splitn(2, |word| word.text == ACCRUED_WORD);
    let (first, second) = (parts.next().unwrap_or_default(), parts.next());
    let right = |count: usize| count == 1 || count == ISSUES;
    if first.len() < 2 || !right(first.len() - 2) || !second.is_none_or(|words| right(words.len()))
    {
        let what = format!(
            "roll takes days, rate, sixteen prices (issue 0 first) or one price for all issues, \
             then `accrued` with sixteen amounts or one; {}",
            here(words.len(), "word")
        );
        return Err(vec![name.fault(what)]);
    }
    let mut fields = vec![DAYS, RATE];
    fields.resize(first.len(), PRICE);
    let mut all = first.to_vec();
    if let Some(second) = second {
        fields.resize(first.len() + second.len(), ACCRUED);
        all.extend_from_slice(second);
    }
    let numbers = numbers(names, name, &fields, &all)?;
    let (prices, accrued) = numbers[2..].split_at(first.len() - 2);
    let quotes = [for_issues(prices), for_issues(accrued)].concat();
    Ok((Instruction::Roll { days: numbers[0], rate: numbers[1] }, quotes))
}

/// A number for each issue: the sixteen that are given, or the one for all; 0 where none is.
fn for_issues(given: &[u32]) -> Vec<u32> {
    match given {
        [] => vec![0; ISSUES],
        [one] => vec![*one; ISSUES],
        all => all.to_vec(),
    }
}

/// The numbers of an instruction, each of which must fit its bits; all that do not are told.
fn numbers(
    names: &Names,
    name: &Word,
    fields: &[Field],
    words: &[Word],
) -> Result<Vec<u32>, Vec<Fault>> {
    if words.len() != fields.len() {
        let wanted: Vec<&str> = fields.iter().map(|field| field.name).collect();
        let takes = if wanted.is_empty() { "no numbers".to_string() } else { wanted.join(", ") };
        let what = format!("{} takes {takes}; {}", name.text, here(words.len(), "number"));
        return Err(vec![name.fault(what)]);
    }
    let (mut numbers, mut faults) = (Vec::new(), Vec::new());
    for (&field, word) in fields.iter().zip(words) {
        match number(names, field, word) {
            Ok(number) => numbers.push(number),
            Err(fault) => faults.push(fault),
        }
    }
    if faults.is_empty() {
        return Ok(numbers);
    }
    Err(faults)
}

/// How many there are on a line.
fn here(count: usize, what: &str) -> String {
    match count {
        1 => format!("here is 1 {what}"),
        count if count > MOST_WORDS => format!("here are more than {MOST_WORDS} {what}s"),
        count => format!("here are {}", counted(count, what)),
    }
}

/// One number of an instruction, or the name that stands for it.
fn number(names: &Names, field: Field, word: &Word) -> Result<u32, Fault> {
    let Field { name, bits, kind, .. } = field;
    let named = kind.map_or(Ok(None), |kind| names.named(kind, word.text));
    if let Some(number) = named.map_err(|what| word.fault(what))? {
        return Ok(number);
    }
    // Nearly all numbers are digits alone, and are read quicker so; what else is read so begins with `+`.
    let mut number: Option<u32> = word.text.parse().ok().filter(|_| !word.text.starts_with('+'));
    if number.is_none() {
        let Some(digits) = digits_of(word.text) else {
            let what = format!(
                "{name} {} is not a number: write digits alone, or with `,` or `_` before every three",
                shown(word.text)
            );
            return Err(word.fault(what));
        };
        number = digits.parse().ok();
    }
    number.filter(|&number| number >> bits == 0).ok_or_else(|| field.outside(word, "large"))
}

/// One number of an instruction, which must be one that the book takes.
pub(crate) fn taken(names: &Names, field: Field, word: &Word) -> Result<u32, Fault> {
    let number = number(names, field, word)?;
    let range = field.range();
    match number {
        number if number < *range.start() => Err(field.outside(word, "small")),
        number if number > *range.end() => Err(field.outside(word, "large")),
        number => Ok(number),
    }
}

/// The digits of a number that may have `,` or `_` before every three of them; none where it has
/// anything else.
pub fn digits_of(word: &str) -> Option<String> {
    let groups: Vec<&str> = word.split([',', '_']).collect();
    let digits = groups.concat();
    let grouped = groups.len() == 1
        || (1..=3).contains(&groups[0].len()) && groups[1..].iter().all(|group| group.len() == 3);
    let all_digits = !digits.is_empty() && digits.bytes().all(|byte| byte.is_ascii_digit());
    (grouped && all_digits).then_some(digits)
}

/// The text form of a tape in which nothing is named.
pub fn of_tape(tape: &[u8]) -> String {
    of_tape_by(&Names::default(), tape)
}

/// The text form of a tape by these names; where reading ends, a comment says so and the rest stands as
/// it is.
pub fn of_tape_by(names: &Names, tape: &[u8]) -> String {
    let mut text = Vec::new();
    let mut day = Day::by(names.clone());
    // A day of words that are in memory is read, and a write to memory does not fail.
    let _ = day.add("", tape.to_vec(), Taken::Words);
    let _ = tell(&day, &mut text);
    String::from_utf8_lossy(&text).to_string()
}

/// Tells the text form of a day by its names; where reading ends, a comment says so and the rest stands as it
/// is.
pub fn tell(day: &Day, out: &mut impl Write) -> Result<(), Untold> {
    let mut reading = day.reading();
    let mut ended = None;
    while reading.more()? {
        let words = reading.words();
        match tape::read(words) {
            Ok((instruction, count)) => {
                let roll = matches!(instruction, Instruction::Roll { .. });
                let quotes = if roll { tape::quotes(words) } else { [0; QUOTES] };
                writeln!(out, "{}", line_by(&day.names, &instruction, &quotes))?;
                reading.pass(count);
            }
            Err(refusal) => {
                ended = Some((refusal.number(), why_ended(words, refusal)));
                break;
            }
        }
    }
    if let Some((number, why)) = ended {
        writeln!(out, "# reading ends at word {}, number {number}: {why}", reading.word())?;
    }
    while reading.more()? && !reading.words().is_empty() {
        let words = reading.words();
        words.iter().try_for_each(|word| writeln!(out, "word {word:08x}"))?;
        reading.pass(words.len());
    }
    Ok(reading.stray().iter().try_for_each(|byte| writeln!(out, "byte {byte:02x}"))?)
}

/// Why reading ends at these words, and what to do where they begin with a roll of the older form.
pub fn why_ended(words: &[u32], refusal: Refusal) -> String {
    let meaning = refusal.meaning();
    older_roll(words).map_or(meaning.to_string(), |what| format!("{meaning}; {what}"))
}

/// What to do where the words begin with a roll of 17 words, as it was before accrued amounts.
pub fn older_roll(words: &[u32]) -> Option<&'static str> {
    let kind = |word: &u32| word >> 28;
    let (head, rest) = words.split_first()?;
    let prices = rest.iter().take_while(|word| kind(word) == 9).count();
    (kind(head) == 7 && prices == ISSUES).then_some(OLDER_ROLL)
}

/// The line of an instruction in which nothing is named, with the quotes of a roll.
pub fn line_of(instruction: &Instruction, quotes: &[u32]) -> String {
    line_by(&Names::default(), instruction, quotes)
}

/// The line of an instruction by these names, with the quotes of a roll.
pub fn line_by(names: &Names, instruction: &Instruction, quotes: &[u32]) -> String {
    match *instruction {
        Instruction::Trade { issue, from, to, lots } => {
            let (from, to) = (names.account(from), names.account(to));
            format!("trade {} {from} {to} {lots}", names.issue(issue))
        }
        Instruction::Deliver { issue, account, lots } => {
            format!("deliver {} {} {lots}", names.issue(issue), names.account(account))
        }
        Instruction::Resolve { issue, account, lots } => {
            format!("resolve {} {} {lots}", names.issue(issue), names.account(account))
        }
        Instruction::PairOff { issue, account } => {
            format!("pair-off {} {}", names.issue(issue), names.account(account))
        }
        Instruction::Mark { issue, mark } => format!("mark {} {mark}", names.issue(issue)),
        Instruction::Turn { day } => format!("turn {day}"),
        Instruction::Close => "close".to_string(),
        Instruction::Cutoff => "cutoff".to_string(),
        Instruction::Roll { days, rate } => {
            let (prices, accrued) = quotes.split_at(ISSUES.min(quotes.len()));
            format!("roll {days} {rate}{} {ACCRUED_WORD}{}", listed(prices), listed(accrued))
        }
    }
}

/// Numbers of the issues, a space before each; one alone where all are alike.
fn listed(numbers: &[u32]) -> String {
    let alike = numbers.windows(2).all(|pair| pair[0] == pair[1]);
    let numbers = numbers.iter().take(if alike { 1 } else { ISSUES });
    numbers.map(|number| format!(" {number}")).collect()
}

#[cfg(test)]
mod tests {
    use super::*;
    use crate::bytes::{join, of_hex};

    #[test]
    fn a_mark_is_one_word() {
        let tape = to_tape("mark 3 1\nmark 15 0 # any lots\n").unwrap();
        assert_eq!(tape, of_hex("d3000001 df000000").unwrap());
        assert_eq!(of_tape(&tape), "mark 3 1\nmark 15 0\n");
        let text = of_tape(&join(&[0xd300_0003]));
        assert!(text.starts_with("# reading ends at word 0, number 14"), "{text}");
    }

    #[test]
    fn a_turn_is_one_word() {
        let tape = to_tape("turn 3\nturn 65,535 # the last day\n").unwrap();
        assert_eq!(tape, of_hex("e0000003 e000ffff").unwrap());
        assert_eq!(of_tape(&tape), "turn 3\nturn 65535\n");
        let text = of_tape(&join(&[0xe001_0003]));
        assert!(text.starts_with("# reading ends at word 0, number 14"), "{text}");
    }

    #[test]
    fn the_example_of_the_paper() {
        let tape = to_tape("trade 0 1 2 3\nclose\ncutoff # to Cut\n").unwrap();
        assert_eq!(tape, of_hex("10042000 80000003 50000000 60000000").unwrap());
        assert_eq!(of_tape(&tape), "trade 0 1 2 3\nclose\ncutoff\n");
    }

    #[test]
    fn every_line_is_read_back() {
        let text = "trade 15 63 0 268435455\nclose\ndeliver 0 63 0\ncutoff\nresolve 15 0 1\n\
            pair-off 7 9\nmark 15 1\nmark 0 0\nturn 0\nturn 65535\nroll 15 16383 262143 accrued 0\nroll 1 2 1 2 3 4 5 6 7 8 9 10 11 12 13 14 15 16 accrued 262143\n\
            roll 1 2 3 accrued 1 2 3 4 5 6 7 8 9 10 11 12 13 14 15 16\n";
        assert_eq!(of_tape(&to_tape(text).unwrap()), text);
    }

    #[test]
    fn a_roll_without_accrued_amounts_has_0_and_says_so() {
        let text = "close\n  roll 1 300 100000\nroll 1 300 100000 accrued 0\n";
        let parsed = parse(text).unwrap();
        let (one, other) = parsed.tape[4..].split_at(33 * 4);
        assert_eq!(one, other);
        let notes = &parsed.notes.first;
        assert_eq!(notes.len(), 1);
        let told = "day.txt:2:3: this roll has no accrued amounts: they are taken as 0 for every \
            issue";
        assert_eq!(notes[0].in_file("day.txt"), told);
        assert_eq!(of_tape(one), "roll 1 300 100000 accrued 0\n");
    }

    #[test]
    fn a_roll_of_the_older_form_is_told_what_to_do() {
        let mut words = vec![0x7104_b000];
        words.extend([0x9001_86a0; 16]);
        for (after, number) in [(&[][..], 13), (&[0x5000_0000], 14), (&[0x7104_b000], 14)] {
            let text = of_tape(&join(&[&words[..], after].concat()));
            let first = text.lines().next().unwrap();
            assert!(first.starts_with(&format!("# reading ends at word 0, number {number}")));
            assert!(first.ends_with("put sixteen words of kind 9 after its prices, 90000000 where nothing is accrued"), "{first}");
            assert_eq!(to_tape(&text).unwrap(), join(&[&words[..], after].concat()));
        }
        for other in [&words[..16], &[&words[..], &[0x9000_0000]].concat()] {
            assert!(!of_tape(&join(other)).contains("accrued"));
        }
    }

    #[test]
    fn damaged_tapes_have_a_text_form() {
        for end in 0..16 {
            let tape = &join(&[0x1004_2000, 0x8000_0003, 0x5000_0001, 0xffff_ffff])[..end];
            assert_eq!(to_tape(&of_tape(tape)).unwrap(), tape);
        }
        let text = of_tape(&join(&[0x5000_0000, 0x1004_2000]));
        assert!(text.contains("# reading ends at word 1, number 13"), "{text}");
    }

    #[test]
    fn separators_and_a_byte_order_mark_are_taken() {
        let plain = to_tape("trade 0 1 2 20000000\r\nclose\r\n").unwrap();
        assert_eq!(to_tape("\u{feff}trade 0 1 2 20,000,000\nclose").unwrap(), plain);
        assert_eq!(to_tape("trade 0 1 2 20_000_000\nclose").unwrap(), plain);
        for wrong in ["2,0000", "20,00", ",200", "1,", "0,1,2", "+5", "-1", "1.5", "0x10", ""] {
            assert_eq!(digits_of(wrong), None, "{wrong}");
        }
    }

    #[test]
    fn a_number_has_no_sign() {
        for word in ["+5", "-5", "+", "5+", "+1,000"] {
            let fault = &parse(&format!("deliver 0 1 {word}")).unwrap_err().first[0];
            assert!(fault.what.starts_with(&format!("lots {word:?} is not a number")), "{fault}");
        }
    }

    #[test]
    fn errors_name_line_and_column_and_what_to_do() {
        for (text, place, error) in [
            ("close\nsell 1 2", (2, 1), "there is no instruction \"sell\": write one of trade"),
            ("  trade 1 2 3", (1, 3), "trade takes issue, from, to, lots; here are 3 numbers"),
            ("\n\nclose 1", (3, 1), "close takes no numbers; here is 1 number"),
            ("deliver 16 0 1", (1, 9), "issue \"16\" is too large: write a number from 0 to 15"),
            ("deliver 0 x 1", (1, 11), "account \"x\" is not a number: write digits alone"),
            (
                "trade 0 1 2 268435456",
                (1, 13),
                "lots \"268435456\" is too large: write a number from 1 to 20,000,000",
            ),
            (
                "trade 0 1 2 99999999999",
                (1, 13),
                "lots \"99999999999\" is too large: write a number from 1 to 20,000,000",
            ),
            ("roll 1 2", (1, 1), "roll takes days, rate, sixteen prices"),
            ("roll 1 2 3 4", (1, 1), "roll takes days, rate, sixteen prices"),
            ("roll 1 2 3 accrued", (1, 1), "roll takes days, rate, sixteen prices"),
            ("roll 1 2 accrued 3", (1, 1), "roll takes days, rate, sixteen prices"),
            ("roll 1 2 3 accrued 4 5", (1, 1), "roll takes days, rate, sixteen prices"),
            (
                "roll 1 2 3 accrued 262144",
                (1, 20),
                "accrued \"262144\" is too large: write a number from 0 to 10,000",
            ),
            ("roll 1 2 3 accrued accrued", (1, 20), "accrued \"accrued\" is not a number"),
            ("roll 16 2 3", (1, 6), "days \"16\" is too large: write a number from 1 to 12"),
            ("mark 3", (1, 1), "mark takes issue, mark; here is 1 number"),
            ("mark 16 1", (1, 6), "issue \"16\" is too large: write a number from 0 to 15"),
            ("mark 3 2", (1, 8), "mark \"2\" is too large: write a number from 0 to 1"),
            ("turn", (1, 1), "turn takes day; here are 0 numbers"),
            ("turn 1 2", (1, 1), "turn takes day; here are 2 numbers"),
            ("turn 65536", (1, 6), "day \"65536\" is too large: write a number from 1 to 65,535"),
            (
                "roll 1 16384 3",
                (1, 8),
                "rate \"16384\" is too large: write a number from 0 to 10,000",
            ),
            (
                "roll 1 2 262144",
                (1, 10),
                "price \"262144\" is too large: write a number from 1 to 200,000",
            ),
            ("trade 0 1 64 1", (1, 11), "to \"64\" is too large: write a number from 0 to 63"),
            ("word 123456789", (1, 6), "one hexadecimal number of up to 8 digits"),
            ("word", (1, 1), "one hexadecimal number of up to 8 digits"),
            ("byte 100", (1, 6), "one hexadecimal number of up to 2 digits"),
            ("byte 1\nclose", (2, 1), "\"close\" cannot follow `byte`"),
        ] {
            let faults = to_tape(text).unwrap_err();
            assert_eq!(faults.count, 1, "{text}: {faults:?}");
            let fault = &faults.first[0];
            assert_eq!((fault.line, fault.column), place, "{text}");
            assert!(fault.what.starts_with(error), "{text}: {fault}");
        }
    }

    #[test]
    fn all_errors_are_told() {
        let faults = to_tape("trade 16 64 2 x\nclose\nsell\nroll 1 2 3 4\n").unwrap_err().first;
        let places: Vec<(usize, usize)> = faults.iter().map(|f| (f.line, f.column)).collect();
        assert_eq!(places, [(1, 7), (1, 10), (1, 15), (3, 1), (4, 1)]);
        assert_eq!(faults[3].in_file("day.txt").split(": ").next(), Some("day.txt:3:1"));
    }

    #[test]
    fn a_text_that_is_wrong_throughout_takes_no_more_room() {
        let text = format!("close\n{}", "sell\n".repeat(200_000));
        let faults = to_tape(&text).unwrap_err();
        assert_eq!((faults.first.len(), faults.count), (12, 200_000));
        let rolls = parse(&"roll 1 300 100000\n".repeat(100)).unwrap();
        assert_eq!((rolls.notes.first.len(), rolls.notes.count), (12, 100));
        let long = format!("trade 0 1 2 {}", "x".repeat(1_000_000));
        let fault = &to_tape(&long).unwrap_err().first[0];
        assert!(fault.what.len() < 200, "{}", fault.what.len());
        let long = "x".repeat(1_000_000);
        let fault = &to_tape(&long).unwrap_err().first[0];
        assert!(fault.what.len() < 500, "{}", fault.what.len());
        let many = format!("close{}", " 1".repeat(1_000_000));
        let fault = &to_tape(&many).unwrap_err().first[0];
        assert_eq!(fault.what, "close takes no numbers; here are more than 35 numbers");
    }

    /// Two issues and two accounts with names.
    fn names() -> Names {
        let text = "issue 0 JGB-350\nissue 3 X/10.5_&\naccount 5 Nomura\naccount 63 大和\n";
        Names::parse(text).unwrap()
    }

    #[test]
    fn names_stand_for_issues_and_accounts() {
        let named = "trade JGB-350 Nomura 大和 230000\nclose\ndeliver X/10.5_& Nomura 7\ncutoff\n\
            resolve JGB-350 大和 1\npair-off X/10.5_& 7\nmark JGB-350 1\nturn 9\n\
            roll 1 300 100000 accrued 0\n";
        let plain = "trade 0 5 63 230000\nclose\ndeliver 3 5 7\ncutoff\nresolve 0 63 1\n\
            pair-off 3 7\nmark 0 1\nturn 9\nroll 1 300 100000 accrued 0\n";
        let tape = to_tape(plain).unwrap();
        assert_eq!(parse_by(&names(), named).unwrap().tape, tape);
        assert_eq!(parse_by(&names(), plain).unwrap().tape, tape);
        assert_eq!(of_tape_by(&names(), &tape), named);
        assert_eq!(of_tape(&tape), plain);
        let damaged = [&tape[..], &[1, 2, 3]].concat();
        let text = of_tape_by(&names(), &damaged);
        assert_eq!(parse_by(&names(), &text).unwrap().tape, damaged);
    }

    #[test]
    fn an_unknown_name_is_told_with_its_place() {
        for (line, column, told) in [
            (
                "trade JGB-351 5 63 1",
                7,
                "there is no issue \"JGB-351\": the names file has JGB-350, X/10.5_&",
            ),
            (
                "trade 0 Nomra 63 1",
                9,
                "there is no account \"Nomra\": the names file has Nomura, 大和",
            ),
            ("deliver Nomura 5 1", 9, "there is no issue \"Nomura\""),
            ("deliver 0 nomura 1", 11, "there is no account \"nomura\""),
            ("deliver 0 5 Nomura", 13, "lots \"Nomura\" is not a number"),
            ("mark 16 1", 6, "issue \"16\" is too large: write a number from 0 to 15"),
            ("turn Nomura", 6, "day \"Nomura\" is not a number"),
        ] {
            let faults = parse_by(&names(), &format!("close\n{line}\n")).unwrap_err();
            assert_eq!(faults.count, 1, "{line}: {faults:?}");
            let fault = &faults.first[0];
            assert_eq!((fault.line, fault.column), (2, column), "{line}");
            assert!(fault.what.starts_with(told), "{line}: {fault}");
        }
        let without = to_tape("deliver 0 Nomura 1").unwrap_err();
        assert!(without.first[0].what.starts_with("account \"Nomura\" is not a number"));
    }

    #[test]
    fn what_fits_its_bits_can_be_written_though_the_book_refuses_it() {
        for line in
            ["trade 0 1 2 0", "trade 0 1 2 268435455", "roll 15 16383 262143 accrued 262143"]
        {
            assert!(to_tape(line).is_ok(), "{line}");
        }
    }
}
