//! Instructions made together: the library takes as many as are at hand in one call, so that it looks only once
//! whether the book is sound. Then they are given one after another, each with what was answered. One that is alone is
//! made by its call.

use crate::story::quotes_of;
use settlement_day::batch::{self, Numbers};
use settlement_day::calls::{self, Done};
use settlement_day::{place, tape, Book, Instruction, Refusal, ISSUES, OUTPUT_WORDS, PLACES};
use std::ops::Range;

/// The most instructions that are made together.
const MOST: usize = 1_024;
/// The words of room for their records. Where no whole output is left of it, the others are made later.
const ROOM: usize = 4 * OUTPUT_WORDS;
/// The most words that are made together on a book that is not copied before them, and the most that are noted since
/// it was copied: a copy takes longer than a few instructions.
const SHORT: usize = 512;
const NOTED: usize = 4_096;

/// Instructions that are made on a book, and how many of them are given.
pub struct Batch {
    /// The instructions, each with its words' count.
    read: Vec<(Instruction, usize)>,
    /// What was answered to each.
    answers: Vec<Numbers>,
    output: Vec<u32>,
    /// How many they are up to the last that is not refused.
    done: usize,
    /// The words of those that are given, and the records of the last of them.
    given: usize,
    at: usize,
    records: Range<usize>,
    /// The lots that the others delivered, by issue and account, and by issue.
    coming: Vec<u32>,
    coming_in: [u64; ISSUES],
    refusals: Refusals,
}

/// An instruction that was made.
#[derive(Clone, Copy, Debug)]
pub struct Made {
    pub instruction: Instruction,
    /// Its words.
    pub count: usize,
    /// Its refusal, if it was refused.
    pub refusal: Option<Refusal>,
}

/// What the book was at each refusal.
struct Refusals {
    /// The book before the word of this index; of no use where words were made that are not noted.
    book: Book,
    at: usize,
    is_copied: bool,
    /// The words made since it was copied, and where those begin that were made last.
    words: Vec<u32>,
    first: usize,
    answers: Vec<Numbers>,
    output: Vec<u32>,
}

impl Default for Batch {
    fn default() -> Batch {
        let (answers, output) = (vec![[0; 3]; MOST], vec![0; ROOM]);
        let refusals = Refusals {
            book: Book::fresh(),
            at: 0,
            is_copied: false,
            words: Vec::new(),
            first: 0,
            answers: Vec::new(),
            output: Vec::new(),
        };
        Batch {
            read: Vec::with_capacity(MOST),
            done: 0,
            given: 0,
            at: 0,
            records: 0..0,
            coming: vec![0; PLACES],
            coming_in: [0; ISSUES],
            refusals,
            answers,
            output,
        }
    }
}

impl Batch {
    /// Makes instructions that begin these words, as many as it can take, up to the first that is to be left: it is
    /// asked of each and of the words up to its end. Answers the words of those that are made; or the reader's
    /// refusal of the first. None is left of those made before, and the book is as they left it.
    pub fn make(
        &mut self,
        book: &mut Book,
        words: &[u32],
        is_left: impl FnMut(&Instruction, usize) -> bool,
    ) -> Result<usize, Refusal> {
        let used = self.read(words, is_left)?;
        self.run(book, &words[..used])
    }

    /// Reads instructions that are to be made; answers their words.
    #[inline]
    pub fn read(
        &mut self,
        words: &[u32],
        mut is_left: impl FnMut(&Instruction, usize) -> bool,
    ) -> Result<usize, Refusal> {
        self.read.clear();
        (self.given, self.at, self.records) = (0, 0, 0..0);
        let mut used = 0;
        while self.read.len() < MOST {
            let (instruction, count) = match tape::read(&words[used..]) {
                Ok(read) => read,
                Err(refusal) if used == 0 => return Err(refusal),
                Err(_) => break,
            };
            if is_left(&instruction, used + count) {
                break;
            }
            self.read.push((instruction, count));
            used += count;
        }
        Ok(used)
    }

    /// Makes those that are read, whose words these are; answers the words of those that are made.
    pub fn run(&mut self, book: &mut Book, words: &[u32]) -> Result<usize, Refusal> {
        if words.is_empty() {
            return Ok(0);
        }
        self.refusals.begin(book, words.len());
        let (answered, used) = make(book, words, &mut self.answers, &mut self.output)?;
        self.read.truncate(answered);
        self.note(&words[..used]);
        Ok(used)
    }

    /// Makes one instruction by its call, and gives it. The book may be another than those made before have left.
    pub fn alone(
        &mut self,
        book: &mut Book,
        instruction: &Instruction,
        quotes: &[u32],
    ) -> Option<Made> {
        self.read.clear();
        self.read.push((*instruction, 0));
        (self.given, self.at, self.records) = (0, 0, 0..0);
        self.answers[0] = called(book, instruction, quotes, &mut self.output);
        self.refusals.is_copied = false;
        self.note(&[]);
        self.next()
    }

    /// Notes what is delivered, the last that is not refused, and the words.
    fn note(&mut self, words: &[u32]) {
        let mut refused = false;
        for ((instruction, _), numbers) in self.read.iter().zip(&self.answers) {
            refused |= numbers[0] != 0;
            if let (Some((issue, at, lots)), 0) = (delivery(instruction), numbers[0]) {
                self.coming[at] += lots;
                self.coming_in[issue] += u64::from(lots);
            }
        }
        let answers = &self.answers[..self.read.len()];
        self.done = answers.iter().rposition(|numbers| numbers[0] == 0).map_or(0, |at| at + 1);
        self.refusals.note(words, refused);
    }

    /// The last instruction that is read.
    pub fn last(&self) -> Option<&Instruction> {
        self.read.last().map(|(instruction, _)| instruction)
    }

    /// How many instructions are made.
    pub fn len(&self) -> usize {
        self.read.len()
    }

    /// Is there one that is not given?
    #[inline(always)]
    pub fn has_next(&self) -> bool {
        self.given < self.read.len()
    }

    /// The next of them that is not given, if there is one.
    #[inline(always)]
    pub fn next(&mut self) -> Option<Made> {
        let &(instruction, count) = self.read.get(self.given)?;
        let numbers = self.answers[self.given];
        self.given += 1;
        self.at += count;
        let refusal = Refusal::check(numbers[0] as u32).err();
        if !matches!(instruction, Instruction::Trade { .. }) {
            self.pass(&instruction, numbers);
        }
        Some(Made { instruction, count, refusal })
    }

    /// Passes over the records of an instruction, and over what it delivered.
    fn pass(&mut self, instruction: &Instruction, [refusal, count, _]: Numbers) {
        let steps = matches!(instruction, Instruction::PairOff { .. });
        let count = if refusal != 0 || steps { 0 } else { count as usize };
        self.records = self.records.end..self.records.end + 2 * count;
        if let (Some((issue, at, lots)), 0) = (delivery(instruction), refusal) {
            self.coming[at] -= lots;
            self.coming_in[issue] -= u64::from(lots);
        }
    }

    /// What the instruction did that was given last and not refused.
    pub fn did(&self) -> Done {
        let [_, count, cancelled] = self.answers[self.given.saturating_sub(1)];
        Done { count: count as usize, cancelled }
    }

    /// The words of the records of the instruction that was given last.
    pub fn records(&self) -> &[u32] {
        &self.output[self.records.clone()]
    }

    /// The lots that an account delivered in an issue by instructions that are not given, and those of all accounts: on
    /// the book of the last of them, if no roll is among them.
    pub fn coming(&self, issue: u32, account: u32) -> (u64, u64) {
        place(issue, account)
            .map_or((0, 0), |at| (self.coming[at].into(), self.coming_in[issue as usize]))
    }

    /// The book as it stood at the instruction that was given last, which was refused, and the words that begin
    /// with it.
    pub fn refused(&mut self) -> (&Book, &[u32]) {
        let last = self.given.checked_sub(1).map_or(0, |at| self.read[at].1);
        self.refusals.bring(self.at - last, self.at)
    }

    /// The book as it stood at that instruction: that which they were made on, where none behind it changed that.
    pub fn refused_on<'a>(&'a mut self, book: &'a Book) -> &'a Book {
        if self.given > self.done {
            return book;
        }
        self.refused().0
    }
}

impl Refusals {
    /// Instructions of so many words are to be made on a book, which the words that are noted have brought here.
    fn begin(&mut self, book: &Book, count: usize) {
        if !self.is_copied || count > SHORT || self.words.len() + count > NOTED {
            self.book.clone_from(book);
            (self.at, self.is_copied) = (0, true);
            self.words.clear();
        }
        self.first = self.words.len();
    }

    /// Notes the words that were made, unless they are many and none is asked for.
    fn note(&mut self, words: &[u32], refused: bool) {
        if refused || words.len() <= SHORT {
            self.words.extend_from_slice(words);
        } else {
            self.is_copied = false;
        }
    }

    /// Brings the book up to the instruction of these words, of those made last, which is refused: it changes
    /// nothing, and the book is that behind it too.
    fn bring(&mut self, first: usize, behind: usize) -> (&Book, &[u32]) {
        let (first, behind) = (self.first + first, self.first + behind);
        let Refusals { book, at, words, answers, output, .. } = self;
        answers.resize(MOST, [0; 3]);
        output.resize(ROOM, 0);
        while *at < first {
            match make(book, &words[*at..first], answers, output) {
                Ok((_, used)) if used > 0 => *at += used,
                _ => break,
            }
        }
        *at = behind;
        (book, &words[first..])
    }
}

/// Makes instructions, of one alone its call, with the answers and the records of each; how many are answered, and
/// their words.
fn make(
    book: &mut Book,
    words: &[u32],
    answers: &mut [Numbers],
    output: &mut [u32],
) -> Result<(usize, usize), Refusal> {
    match tape::read(words) {
        Ok((instruction, count)) if count == words.len() => {
            answers[0] = called(book, &instruction, &quotes_of(&instruction, words), output);
            Ok((1, count))
        }
        _ => batch::run(book, words, answers, output).map(|ran| (ran.answered, ran.used)),
    }
}

/// Makes an instruction by its call: what was answered.
fn called(
    book: &mut Book,
    instruction: &Instruction,
    quotes: &[u32],
    output: &mut [u32],
) -> Numbers {
    match calls::call(book, instruction, quotes, output) {
        Ok(Done { count, cancelled }) => [0, count as u64, cancelled],
        Err(refusal) => [refusal.number().into(), 0, 0],
    }
}

/// The issue, the place and the lots of a delivery of an issue and account that there are.
fn delivery(instruction: &Instruction) -> Option<(usize, usize, u32)> {
    let Instruction::Deliver { issue, account, lots } = *instruction else { return None };
    Some((issue as usize, place(issue, account)?, lots))
}

#[cfg(test)]
mod tests {
    use super::*;
    use crate::story::quotes_of;
    use crate::text::to_tape;
    use settlement_day::calls::{self, Done};

    /// Two days with refusals of many kinds, the words behind which reading ends.
    fn words() -> Vec<u32> {
        let day = "trade 0 4 1 230000\ntrade 0 4 4 1\ntrade 0 5 2 250000\ntrade 0 5 2 20000000\nmark 0 1\n\
                   mark 1 1\ntrade 1 5 2 7\nturn 0\ncutoff\nclose\nclose\ndeliver 0 5 100000\ndeliver 0 4 1\n\
                   deliver 0 5 100000\ndeliver 0 5 100000\nresolve 0 5 1\ndeliver 0 5 30000\ncutoff\n\
                   resolve 0 5 9999\nresolve 0 5 30000\npair-off 0 5\nroll 13 0 1 accrued 0\n";
        let roll = format!("roll 1 300 100000{} accrued 0{}\n", " 1".repeat(15), " 0".repeat(15));
        let text = format!("{}mark 1 0\n{}", format!("{day}{roll}").repeat(2), "word 80000000\n");
        crate::bytes::split(&to_tape(&text).expect("a tape")).0
    }

    /// Makes a tape together, so many words at once, and each instruction by its call.
    fn compare(
        words: &[u32],
        most: usize,
        is_left: impl Fn(&Instruction) -> bool,
    ) -> (u32, Refusal) {
        let (mut book, mut batch) = (Book::fresh(), Batch::default());
        let (mut by_calls, mut out) = (Book::fresh(), vec![0; OUTPUT_WORDS]);
        let (mut at, mut refusals) = (0, 0);
        loop {
            let part = &words[at..words.len().min(at + most)];
            let used = match batch.make(&mut book, part, |instruction, _| is_left(instruction)) {
                Ok(0) => {
                    let mut made = false;
                    let first = |_: &Instruction, _| std::mem::replace(&mut made, true);
                    batch.make(&mut book, part, first).expect("the first can be read")
                }
                Ok(used) => used,
                Err(refusal) => return (refusals, refusal),
            };
            let (end, mut count) = (at + used, 0);
            while let Some(made) = batch.next() {
                let instruction = made.instruction;
                assert_eq!(tape::read(&words[at..]), Ok((instruction, made.count)));
                let quotes = quotes_of(&instruction, &words[at..]);
                let answer = calls::call(&mut by_calls, &instruction, &quotes, &mut out);
                assert_eq!(made.refusal, answer.err(), "{instruction:?}");
                if answer.is_err() {
                    refusals += 1;
                    let (stood, behind) = batch.refused();
                    assert!(*stood == by_calls, "{instruction:?}");
                    assert_eq!(behind[..made.count], words[at..at + made.count]);
                }
                if let (Instruction::Deliver { issue, account, .. }, Ok(Done { count, .. })) =
                    (instruction, answer)
                {
                    assert_eq!(batch.records(), &out[..2 * count]);
                    compare_coming(&batch, &book, &by_calls, issue, account);
                }
                at += made.count;
                count += 1;
            }
            assert_eq!((at, count), (end, batch.len()));
            assert!(book == by_calls);
        }
    }

    /// What the others deliver is the difference of the books, where no roll is among them.
    fn compare_coming(batch: &Batch, book: &Book, by_calls: &Book, issue: u32, account: u32) {
        if book.day == by_calls.day {
            let (of_account, of_all) = batch.coming(issue, account);
            let delivered = u64::from(by_calls.delivered(issue, account));
            assert_eq!(u64::from(book.delivered(issue, account)), delivered + of_account);
            assert_eq!(book.delivered_total(issue), by_calls.delivered_total(issue) + of_all);
        }
    }

    #[test]
    fn instructions_made_together_are_the_calls_one_by_one() {
        let words = words();
        let alone = |instruction: &Instruction| matches!(instruction, Instruction::Roll { .. });
        for most in [33, 40, 1_000] {
            assert_eq!(compare(&words, most, |_| false), (21, Refusal::Word), "{most}");
            assert_eq!(compare(&words, most, alone), (21, Refusal::Word), "{most}");
        }
        let cut = &words[..words.len() - 1];
        assert_eq!(compare(cut, 1_000, |_| false), (21, Refusal::TapeEnds));
    }

    #[test]
    fn the_book_at_a_refusal_is_that_of_the_calls_however_few_are_made_together() {
        let words = words();
        let words = words[..words.len() - 1].repeat(NOTED / words.len() + 2);
        for few in [1, 2, 3, 5, SHORT] {
            let (mut book, mut batch, mut by_calls) =
                (Book::fresh(), Batch::default(), Book::fresh());
            let (mut at, mut out, mut refusals) = (0, vec![0; OUTPUT_WORDS], 0);
            while at < words.len() {
                let mut left = few;
                let is_left =
                    |_: &Instruction, _| left.checked_sub(1).map(|less| left = less).is_none();
                batch.make(&mut book, &words[at..], is_left).expect("they can be read");
                while let Some(Made { instruction, count, refusal }) = batch.next() {
                    let quotes = quotes_of(&instruction, &words[at..]);
                    let answer = calls::call(&mut by_calls, &instruction, &quotes, &mut out);
                    assert_eq!(refusal, answer.err(), "{instruction:?}");
                    if let Ok(done) = answer {
                        assert_eq!(batch.did(), done, "{instruction:?}");
                    } else {
                        refusals += 1;
                        assert!(*batch.refused_on(&book) == by_calls, "{few}: {instruction:?}");
                        let is_asked = refusals % 3 == 0;
                        assert!(!is_asked || *batch.refused().0 == by_calls, "{instruction:?}");
                    }
                    at += count;
                }
            }
            assert!(book == by_calls && refusals > 100, "{few}: {refusals}");
        }
    }

    #[test]
    fn what_has_no_room_is_made_later() {
        let trades = "trade 0 1 2 1\n".repeat(MOST + 1);
        let words = crate::bytes::split(&to_tape(&trades).expect("a tape")).0;
        assert_eq!(compare(&words, words.len(), |_| false), (0, Refusal::TapeEnds));
        let (mut book, mut batch) = (Book::fresh(), Batch::default());
        assert_eq!(batch.make(&mut book, &words, |_, _| false), Ok(2 * MOST));
        // The records of each day are 400 words.
        let roll = format!("roll 1 300 1{} accrued 0{}\n", " 1".repeat(15), " 0".repeat(15));
        let day = "trade 0 1 2 20000000\nclose\ndeliver 0 1 20000000\ncutoff\n".to_string() + &roll;
        let words = crate::bytes::split(&to_tape(&day.repeat(40)).expect("a tape")).0;
        assert_eq!(compare(&words, words.len(), |_| false), (0, Refusal::TapeEnds));
        let used = batch.make(&mut Book::fresh(), &words, |_, _| false);
        assert!(used.is_ok_and(|used| used < words.len()), "{used:?}");
    }
}
