//! `runs`: the instructions of a tape's words on a host's book, by the library in one run and by the second engine one by
//! one.
//!
//! Every list of four instructions out of a few, in both orders of full units. Then random tapes, whole, damaged and cut,
//! on fresh books and on random ones, some of them not sound; with answers and outputs of any length. Where a run stops
//! for want of room, it goes on with both emptied. Number and counts, the numbers of each instruction, the records, all
//! words around them and the book are compared. `--replay` takes the places of the answers, the words of the output and a
//! tape in hexadecimal, for a fresh book.

use ::tape::bytes;
use reference::book::Book;
use reference::tape::{self, Instruction};
use settlement_day::{batch, raw, Refusal, OUTPUT_WORDS};
use std::fmt;
use std::process::ExitCode;
use tests::books::{random_book, Shape};
use tests::convert::{library_book, same_numbers};
use tests::engines::{book_difference, by_reference, pattern};
use tests::options::{number, Options};
use tests::random_tapes::{call_of, damaged, small_tape, tape_from, words_of};
use tests::report::{progress, Mismatch};
use tests::rng::Rng;
use tests::steps::Call;

const DEFAULT_CASES: u64 = 6_000;
/// The numbers that are told of an instruction.
const NUMBERS: usize = 3;
/// The places before and after what is lent, which nothing may write.
const MARGIN: usize = 8;

/// A tape with the room that a run of it is lent.
struct Case {
    words: Vec<u32>,
    answers: usize,
    out: usize,
}

impl fmt::Display for Case {
    /// The words that `--replay` takes.
    fn fmt(&self, text: &mut fmt::Formatter) -> fmt::Result {
        write!(text, "{} {}", self.answers, self.out)?;
        self.words.iter().try_for_each(|word| write!(text, " {word:08x}"))
    }
}

/// What a run gave: number, instructions answered, words used, words written.
type Ran = (u32, usize, usize, usize);

/// What is lent, with places around it that are not.
#[derive(Clone, PartialEq, Eq)]
struct Lent {
    answers: Vec<u64>,
    out: Vec<u32>,
}

impl Lent {
    /// So much room, every place with a pattern.
    fn new(case: &Case) -> Lent {
        let filled = |places| pattern(places + 2 * MARGIN);
        Lent {
            answers: filled(case.answers).into_iter().map(u64::from).collect(),
            out: filled(case.out),
        }
    }

    /// The part that is lent.
    fn inner(&mut self) -> (&mut [u64], &mut [u32]) {
        let (last, end) = (self.answers.len() - MARGIN, self.out.len() - MARGIN);
        (&mut self.answers[MARGIN..last], &mut self.out[MARGIN..end])
    }

    /// The first place in which they differ.
    fn difference(&self, other: &Lent) -> Option<String> {
        let tell = |what: &str, at: usize, one: u64, other: u64| {
            format!("{what} {}: {one} and {other}", at as i64 - MARGIN as i64)
        };
        let answers = self.answers.iter().zip(&other.answers);
        let out = self.out.iter().zip(&other.out);
        let told = answers.enumerate().find(|(_, (one, other))| one != other);
        let written = out.enumerate().find(|(_, (one, other))| one != other);
        told.map(|(at, (&one, &other))| tell("answer", at, one, other))
            .or(written.map(|(at, (&one, &other))| tell("word", at, one.into(), other.into())))
    }
}

/// What random tapes have met.
#[derive(Default)]
struct Met {
    runs: u64,
    done: u64,
    refused: u64,
    steps: u64,
    cancelled: u64,
    records: u64,
    ends: u64,
    few_answers: u64,
    few_words: u64,
    cut: u64,
    wrong: u64,
    short: u64,
    unsound: u64,
    /// Trades behind a trade, done, and deliveries behind one of the same issue that hand over units: in the old
    /// order, the same where a unit of the issue was lifted, and where full units are dealt in turn.
    trades: u64,
    deliveries: u64,
    lifted: u64,
    dealt: u64,
}

impl Met {
    /// How often each was met.
    fn all(&self) -> [u64; 16] {
        [
            self.trades,
            self.deliveries,
            self.lifted,
            self.dealt,
            self.done,
            self.refused,
            self.steps,
            self.cancelled,
            self.records,
            self.ends,
            self.few_answers,
            self.few_words,
            self.cut,
            self.wrong,
            self.short,
            self.unsound,
        ]
    }

    /// Notes an instruction that is done behind another, with its records.
    fn follows(&mut self, book: &Book, last: Instruction, next: Instruction, records: u64) {
        use Instruction::{Deliver, Trade};
        match (last, next) {
            (Trade { .. }, Trade { .. }) => self.trades += 1,
            (Deliver { issue, .. }, Deliver { issue: same, .. })
                if issue == same && records > 0 =>
            {
                let dealt = book.turn != 0 && book.turn <= book.day.into();
                let lifted = book.lifts[issue as usize].number > 0;
                self.dealt += u64::from(dealt);
                self.deliveries += u64::from(!dealt);
                self.lifted += u64::from(!dealt && lifted);
            }
            _ => {}
        }
    }

    /// The second engine: the calls one by one, each with all its questions.
    fn model(&mut self, book: &mut Book, words: &[u32], lent: &mut Lent) -> Ran {
        let (answers, out) = lent.inner();
        if answers.len() < NUMBERS || out.len() < OUTPUT_WORDS {
            self.short += 1;
            return (1, 0, 0, 0);
        }
        if !book.sound() {
            self.unsound += 1;
            return (2, 0, 0, 0);
        }
        let (mut answered, mut used, mut written) = (0, 0, 0);
        let mut last = Instruction::Close;
        while used < words.len() {
            let rest = &words[used..];
            let (instruction, count) = match tape::read(rest) {
                Ok(read) => read,
                Err(number) => {
                    let place = if number == 13 { &mut self.cut } else { &mut self.wrong };
                    *place += 1;
                    return (number, answered, used, written);
                }
            };
            let full = answers.len() - NUMBERS * answered < NUMBERS;
            if full || out.len() - written < OUTPUT_WORDS {
                let place = if full { &mut self.few_answers } else { &mut self.few_words };
                *place += 1;
                return (0, answered, used, written);
            }
            let answer = by_reference(book, &call_of(&instruction, rest), &mut out[written..]);
            let [records, cancelled, ..] = answer.others;
            answers[NUMBERS * answered..][..NUMBERS].copy_from_slice(&[
                answer.number.into(),
                records,
                cancelled,
            ]);
            match instruction {
                Instruction::PairOff { .. } => self.steps += records,
                _ => {
                    written += 2 * records as usize;
                    self.records += records;
                }
            }
            if answer.number == 0 {
                self.follows(book, last, instruction, records);
            }
            last = instruction;
            self.done += u64::from(answer.number == 0);
            self.refused += u64::from(answer.number != 0);
            self.cancelled += cancelled;
            answered += 1;
            used += count;
        }
        self.ends += 1;
        (0, answered, used, written)
    }

    /// Puts a tape to both from the same book, in as many runs as its room asks for.
    fn compare(&mut self, case: &Case, book: &Book) -> Result<Ran, String> {
        let (mut one, mut other) = (book.clone(), library_book(book));
        let (mut at, mut last);
        at = 0;
        loop {
            let words = &case.words[at..];
            let (mut lent, mut same) = (Lent::new(case), Lent::new(case));
            last = self.model(&mut one, words, &mut lent);
            let (answers, out) = same.inner();
            let ran = raw::run(&mut other.columns_mut(), words, answers, out);
            let came = (ran.refusal, ran.answered, ran.used, ran.written);
            Mismatch::of(case, last, came).map_err(|mismatch| mismatch.to_string())?;
            if let Some(difference) = lent.difference(&same) {
                return Err(format!("{difference}, from word {at} on of the case: {case}"));
            }
            if !same_numbers(&one, &other) {
                let [here, there] = book_difference(&library_book(&one), &other);
                return Err(format!("{here}, but {there}, from word {at} on of the case: {case}"));
            }
            self.runs += 1;
            at += last.2;
            if last.0 != 0 || at == case.words.len() {
                return Ok(last);
            }
        }
    }
}

/// One of the numbers of a book that make it damaged, mostly.
fn damage(rng: &mut Rng, book: &mut Book) {
    let place = rng.range(0, 1_023) as usize;
    match rng.range(0, 6) {
        0 => book.nets[place] += 1,
        1 => book.delivered[place] ^= 1 << rng.range(0, 31),
        2 => book.charges[place % 64] += 1,
        3 => book.lifts[place % 16].number = 9,
        4 => book.count += 1,
        5 => book.lots[place % 8] ^= 1 << rng.range(0, 31),
        _ => book.marks[place % 16] ^= 1,
    }
}

/// Room for answers and records: often short, or just enough.
fn room(rng: &mut Rng) -> (usize, usize) {
    let any = rng.range(0, 900) as usize;
    let answers = *rng.pick(&[2, 3, 4, 5, 6, 9, 30, 1_000, 1_000, 1_000, any]);
    let more = rng.range(0, 600) as usize;
    let least = OUTPUT_WORDS;
    let out = *rng.pick(&[least - 1, least, least, least + 1, least + more, 2 * least, 16 * least]);
    (answers, out)
}

/// A random case, with the book that it begins on.
fn random(rng: &mut Rng) -> (Case, Book) {
    let (answers, out) = room(rng);
    let (tape, mut book) = if rng.chance(1, 2) {
        (small_tape(rng), Book::fresh())
    } else {
        let shape = Shape::few(rng);
        let book = random_book(rng, &shape);
        let instructions = rng.range(1, 60);
        let tape = tape_from(rng, &shape, book.clone(), instructions);
        (if rng.chance(1, 3) { damaged(rng, tape) } else { tape }, book)
    };
    if rng.chance(1, 12) {
        damage(rng, &mut book);
    }
    (Case { words: bytes::split(&tape).0, answers, out }, book)
}

/// Every list of four instructions out of a few, as one run, in both orders of full units: on two nets that tie and end
/// inside a unit, deliveries that end at a unit's end, inside it and behind it, of two accounts and of another issue, one
/// that is refused, a mark and a cutoff between them.
fn every(met: &mut Met) -> Result<u64, String> {
    let deliver = |issue, account, lots| Call::Deliver { issue, account, lots, out: 0 };
    let trade = |issue, from, to, lots| Call::Trade { issue, from, to, lots };
    let choices = [
        deliver(0, 4, 100_000),
        deliver(0, 4, 70_000),
        deliver(0, 5, 30_000),
        deliver(1, 4, 1),
        deliver(0, 4, 0),
        Call::Mark { issue: 2, mark: 1 },
        Call::Cutoff { out: 0 },
    ];
    let day = [
        trade(0, 4, 1, 230_000),
        trade(0, 4, 2, 230_000),
        trade(0, 5, 3, 150_000),
        trade(1, 4, 1, 3),
        Call::Close,
    ];
    let words = |calls: &[Call]| calls.iter().filter_map(words_of).flatten().collect();
    let day: Vec<u32> = words(&day);
    let choices: Vec<Vec<u32>> = choices.iter().map(|call| words(&[call.clone()])).collect();
    let most = choices.len();
    let mut lists = 0;
    for dealt in [0, 1] {
        let book = Book { day: dealt, turn: dealt.into(), ..Book::fresh() };
        for list in 0..most.pow(4) {
            let picked = [list, list / most, list / most.pow(2), list / most.pow(3)];
            let picked = picked.iter().flat_map(|at| &choices[at % most]);
            let words = day.iter().chain(picked).copied().collect();
            met.compare(&Case { words, answers: 1_000, out: 2 * OUTPUT_WORDS }, &book)?;
            lists += 1;
        }
    }
    match (met.deliveries, met.dealt, met.unsound) {
        (0, ..) | (_, 0, _) => Err(format!("no units are handed over: {lists} lists")),
        (.., 0) => Ok(lists),
        _ => Err("a book is not sound".to_string()),
    }
}

/// What the second engine's book cannot hold, and what the typed form says.
fn lent() -> Result<(), String> {
    let words = [5 << 28];
    let case = Case { words: words.to_vec(), answers: NUMBERS, out: OUTPUT_WORDS };
    let fresh = settlement_day::Book::fresh();
    let mut book = fresh.clone();
    let changes: [fn(&mut raw::ColumnsMut); 3] = [
        |columns| *columns.phase = 3,
        |columns| columns.nets = &mut [],
        |columns| columns.days = &mut [],
    ];
    for (at, change) in changes.into_iter().enumerate() {
        let mut lent = Lent::new(&case);
        let (answers, out) = lent.inner();
        let mut columns = book.columns_mut();
        change(&mut columns);
        let ran = raw::run(&mut columns, &words, answers, out);
        let as_came = *columns.phase == if at == 0 { 3 } else { 0 };
        if (ran.refusal, ran.answered, ran.used, ran.written) != (2, 0, 0, 0) || !as_came {
            return Err(format!("damaged columns, {at}: {ran:?}"));
        }
        if lent.difference(&Lent::new(&case)).is_some() {
            return Err(format!("damaged columns, {at}: an output is not as it came"));
        }
        book.clone_from(&fresh);
    }
    let (mut answers, mut out) = ([[7; NUMBERS]; 2], [7; OUTPUT_WORDS]);
    let ran = batch::run(&mut book, &words, &mut answers, &mut out);
    let expected = batch::Ran { answered: 1, used: 1, written: 0, stop: batch::Stop::End };
    if ran != Ok(expected) || answers != [[0; NUMBERS], [7; NUMBERS]] {
        return Err(format!("a close: {ran:?}, {answers:?}"));
    }
    match batch::run(&mut book, &words, &mut [], &mut out) {
        Err(Refusal::Output) => Ok(()),
        other => Err(format!("no place for an answer: {other:?}")),
    }
}

/// Reads a case from the words after `--replay` and puts it to both on a fresh book.
fn replay(words: &[String]) -> Result<String, String> {
    let mut words = words.iter().cloned();
    let answers = number("the places of the answers", words.next())?;
    let out = number("the words of the output", words.next())?;
    let word =
        |word: String| u32::from_str_radix(&word, 16).map_err(|_| format!("no word: {word}"));
    let words: Vec<u32> = words.map(word).collect::<Result<_, String>>()?;
    let last = Met::default().compare(&Case { words, answers, out }, &Book::fresh())?;
    Ok(format!("runs: 1 case agrees: {last:?}"))
}

/// Runs the cases that the command line asks for; the last line.
fn run(options: &Options) -> Result<String, String> {
    if let Some(words) = &options.replay {
        return replay(words);
    }
    lent()?;
    let lists = every(&mut Met::default())?;
    let mut met = Met::default();
    for at in 0..options.cases {
        let (case, book) = random(&mut Rng::of_case(options.seed, at));
        met.compare(&case, &book)
            .map_err(|error| format!("{error}\nseed {}, case {at}", options.seed))?;
        progress(at + 1, options.cases);
    }
    if options.cases >= DEFAULT_CASES && met.all().contains(&0) {
        return Err(format!("one was never met: {:?}, seed {}", met.all(), options.seed));
    }
    let Met { runs, done, refused, records, few_answers, few_words, short, unsound, .. } = met;
    let Met { trades, deliveries, lifted, dealt, .. } = met;
    Ok(format!(
        "runs: {lists} lists of four and {} tapes agree in {runs} runs: {done} instructions done and {refused} refused, {records} records; \
         {trades} trades and {deliveries} deliveries behind others alike ({lifted} where units were lifted), {dealt} \
         deliveries dealt in turn; {few_answers} and {few_words} runs went on for want of answers and of words, {short} were refused by 1 and \
         {unsound} by 2, {} and {} stopped by 13 and 14",
        options.cases, met.cut, met.wrong
    ))
}

fn main() -> ExitCode {
    match Options::of_command_line(DEFAULT_CASES, &[]).and_then(|options| run(&options)) {
        Ok(line) => {
            println!("{line}");
            ExitCode::SUCCESS
        }
        Err(error) => {
            eprintln!("runs: {error}");
            ExitCode::FAILURE
        }
    }
}
