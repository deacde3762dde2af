//! `statement`: fails statements over a tape's span, by the library and by the second engine.
//!
//! Worked tapes by their numbers; the samples of `tapes/`, of every issue and account; tapes of 4,095 to
//! 4,097 instructions, whose last ones count or do not; then random tapes, whole, damaged and cut. Numbers
//! of a refusal, and the words around the answer, are compared too; due is delivered and failed, and the
//! fails of all accounts are all fails that were written. `--replay` takes an issue, an account and the
//! words in hexadecimal.

use reference::statement::{fails, statement as model, MOST_INSTRUCTIONS};
use settlement_day::{statement::write, Refusal};
use std::collections::BTreeSet;
use std::fmt;
use std::path::Path;
use std::process::ExitCode;
use std::{fs, iter};
use tape::{bytes, text};
use tests::options::{number, Options};
use tests::random_tapes::{day_tape, small_tape};
use tests::report::{progress, Mismatch};
use tests::rng::Rng;

const DEFAULT_CASES: u64 = 4_000;
/// The random tapes about the length of a span.
const LONG: u64 = 12;
/// What stands around the six numbers, which nothing may write.
const AROUND: u64 = 0xf00d_f00d_f00d_f00d;
/// The sample whose statement is worked.
const WORKED: &str = "tapes/fails-statement.txt";

/// A tape, an issue and an account.
struct Case<'a> {
    words: &'a [u32],
    issue: u32,
    account: u32,
}

impl fmt::Display for Case<'_> {
    /// The words that `--replay` takes.
    fn fmt(&self, text: &mut fmt::Formatter) -> fmt::Result {
        write!(text, "{} {}", self.issue, self.account)?;
        self.words.iter().try_for_each(|word| write!(text, " {word:08x}"))
    }
}

/// The number and the words of the answer, with those around it.
type Answer = (u32, u64, [u64; 6], u64);

/// An answer between words that are not its own.
#[repr(C)]
struct Lent {
    before: u64,
    numbers: [u64; 6],
    after: u64,
}

impl Case<'_> {
    /// The library's answer.
    fn library(&self) -> Answer {
        let mut lent = Lent { before: AROUND, numbers: [AROUND; 6], after: AROUND };
        let answer = write(self.words, self.issue, self.account, &mut lent.numbers);
        (answer.err().map_or(0, Refusal::number), lent.before, lent.numbers, lent.after)
    }

    /// The second engine's.
    fn model(&self) -> Answer {
        match model(self.words, self.issue, self.account) {
            Ok(told) => {
                let (due, failed) = (told.due, told.failed);
                (0, AROUND, [due, told.delivered, failed, told.resolved, failed, due], AROUND)
            }
            Err(number) => (number, AROUND, [0; 6], AROUND),
        }
    }

    /// Puts the case to both; gives the six numbers.
    fn compare(&self) -> Result<[u64; 6], String> {
        let expected = self.model();
        Mismatch::of(self, expected, self.library()).map_err(|mismatch| mismatch.to_string())?;
        let [due, delivered, failed, ..] = expected.2;
        if due != delivered + failed {
            return Err(format!(
                "{due} due is not {delivered} delivered and {failed} failed: {self}"
            ));
        }
        Ok(expected.2)
    }
}

/// What random tapes have met.
#[derive(Default)]
struct Met {
    cases: u64,
    failed: u64,
    resolved: u64,
    nothing: u64,
}

impl Met {
    /// Puts a tape to both, for every account of an issue, with an issue and an account out of range; the
    /// fails of all accounts are those that were written.
    fn issue(&mut self, words: &[u32], issue: u32) -> Result<(), String> {
        let mut all = 0;
        for account in 0..64 {
            let told = Case { words, issue, account }.compare()?;
            all += told[2];
            self.cases += 1;
            self.failed += u64::from(told[2] > 0);
            self.resolved += u64::from(told[3] > 0);
            self.nothing += u64::from(told == [0; 6]);
        }
        for (issue, account) in [(16, 64), (16, 0), (u32::MAX, 63), (issue, 64), (issue, u32::MAX)]
        {
            Case { words, issue, account }.compare()?;
            self.cases += 1;
        }
        let written = fails(words, issue);
        if all != written {
            return Err(format!(
                "all accounts fail {all} lots in issue {issue}, and {written} were written"
            ));
        }
        Ok(())
    }
}

/// The words of a tape; a last one that is not whole is none.
fn words_of(tape: &[u8]) -> Vec<u32> {
    bytes::split(tape).0
}

/// The words of a text.
fn tape_of(text: &str) -> Result<Vec<u32>, String> {
    Ok(words_of(&text::to_tape(text).map_err(|faults| format!("{faults:?}"))?))
}

/// The library's numbers, which both engines have; due, delivered, failed, resolved.
fn told(words: &[u32], issue: u32, account: u32) -> Result<[u64; 4], String> {
    let [due, delivered, failed, resolved, ..] = Case { words, issue, account }.compare()?;
    Ok([due, delivered, failed, resolved])
}

/// The worked sample by its numbers.
fn worked() -> Result<u64, String> {
    let text = fs::read_to_string(WORKED).map_err(|error| format!("{WORKED}: {error}"))?;
    let words = tape_of(&text)?;
    let rows = [
        (0, 4, [130, 90, 40, 20]),
        (0, 5, [50, 0, 50, 50]),
        (0, 1, [0, 0, 0, 0]),
        (3, 7, [8, 2, 6, 0]),
    ];
    for (issue, account, expected) in rows {
        let numbers = told(&words, issue, account)?;
        if numbers != expected {
            return Err(format!("{WORKED}, issue {issue}, account {account}: {numbers:?}"));
        }
    }
    Ok(rows.len() as u64)
}

/// The samples of `tapes/`, of every issue and account.
fn samples(met: &mut Met) -> Result<usize, String> {
    let folder = fs::read_dir("tapes").map_err(|error| format!("tapes: {error}"))?;
    let texts = folder.flatten().map(|file| file.path());
    let texts: BTreeSet<_> =
        texts.filter(|path| path.extension() == Some("txt".as_ref())).collect();
    for path in &texts {
        let words = tape_of(&read(path)?)?;
        (0..16).try_for_each(|issue| met.issue(&words, issue))?;
    }
    Ok(texts.len())
}

/// The text of a file.
fn read(path: &Path) -> Result<String, String> {
    fs::read_to_string(path).map_err(|error| format!("{}: {error}", path.display()))
}

/// Tapes about the length of a span: a day of `before` instructions, refused ones among them, and behind it
/// what counts only where it is among the first 4,096. How many there are.
fn lengths() -> Result<u64, String> {
    let mut tapes = 0;
    for filler in ["pair-off 1 1", "trade 0 3 3 1", "deliver 0 1 1", "trade 9 1 2 1"] {
        for last in ["cutoff", "resolve 0 1 5"] {
            for length in 4_090..=4_100 {
                // A day that is cut off, or one whose fail is resolved, at the instruction `length`.
                let first: &[&str] = match last {
                    "cutoff" => &["trade 0 1 2 7", "close"],
                    _ => &["trade 0 1 2 7", "close", "cutoff"],
                };
                let fill = iter::repeat(filler).take(length - first.len() - 1);
                let lines: Vec<&str> =
                    first.iter().copied().chain(fill).chain([last, "close"]).collect();
                let words = tape_of(&lines.join("\n"))?;
                let counts = length <= MOST_INSTRUCTIONS;
                let expected = match (last, counts) {
                    ("cutoff", false) => [0, 0, 0, 0],
                    ("cutoff", true) if filler == "deliver 0 1 1" => [7, 7, 0, 0],
                    (_, false) | ("cutoff", true) => [7, 0, 7, 0],
                    (_, true) => [7, 0, 7, 5],
                };
                let numbers = told(&words, 0, 1)?;
                if numbers != expected {
                    return Err(format!(
                        "{filler:?} up to {last:?} as the {length}th: {numbers:?}"
                    ));
                }
                tapes += 1;
            }
        }
    }
    Ok(tapes)
}

/// Random tapes about the length of a span.
fn long(seed: u64, met: &mut Met) -> Result<(), String> {
    for at in 0..LONG {
        let mut rng = Rng::of_case(seed, at);
        let instructions = 4_095 + at as u32 % 3;
        let words = words_of(&day_tape(&mut rng, instructions, at % 2 == 0));
        (0..4).try_for_each(|issue| met.issue(&words, issue))?;
    }
    Ok(())
}

/// Reads a case from the words after `--replay` and puts it.
fn replay(words: &[String]) -> Result<String, String> {
    let mut words = words.iter().cloned();
    let issue = number("the issue", words.next())?;
    let account = number("the account", words.next())?;
    let word =
        |word: String| u32::from_str_radix(&word, 16).map_err(|_| format!("no word: {word}"));
    let words: Vec<u32> = words.map(word).collect::<Result<_, String>>()?;
    let numbers = Case { words: &words, issue, account }.compare()?;
    Ok(format!("statement: 1 case agrees: {numbers:?}"))
}

/// Runs the cases that the command line asks for; the last line.
fn run(options: &Options) -> Result<String, String> {
    if let Some(words) = &options.replay {
        return replay(words);
    }
    let seed = |error: String| format!("{error}\nseed {}", options.seed);
    let worked = worked()?;
    let lengths = lengths()?;
    eprintln!("{worked} worked statements and {lengths} tapes about the length of a span are as they should be");
    let mut met = Met::default();
    let samples = samples(&mut met)?;
    eprintln!("{samples} samples agree");
    long(options.seed, &mut met).map_err(seed)?;
    for at in 0..options.cases {
        let mut rng = Rng::of_case(options.seed, LONG + at);
        let words = words_of(&small_tape(&mut rng));
        let issue = rng.range(0, 15);
        // Issue 0 is in most tapes; another one may be in few.
        met.issue(&words, if rng.chance(2, 3) { 0 } else { issue }).map_err(seed)?;
        progress(at + 1, options.cases);
    }
    if options.cases >= DEFAULT_CASES && [met.failed, met.resolved, met.nothing].contains(&0) {
        return Err(seed("no fail, no resolve or no empty statement was met".to_string()));
    }
    let Met { cases, failed, resolved, .. } = met;
    Ok(format!(
        "statement: {worked} worked, {lengths} of lengths, {samples} samples, {LONG} long tapes and {} random \
         ones agree: {cases} statements, {failed} with fails, {resolved} with resolves",
        options.cases
    ))
}

fn main() -> ExitCode {
    match Options::of_command_line(DEFAULT_CASES, &[]).and_then(|options| run(&options)) {
        Ok(line) => {
            println!("{line}");
            ExitCode::SUCCESS
        }
        Err(error) => {
            eprintln!("statement: {error}");
            ExitCode::FAILURE
        }
    }
}
